"""A program: its ELF file or text, its code, and the names and lines of its addresses."""
