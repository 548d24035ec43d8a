"""Changes of files by chance, and the readers and commands that are given them."""
