"""`bspgdb --dialogue`: a prompt, and answers to lines with names."""
