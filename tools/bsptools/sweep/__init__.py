"""`bspsweep`: runs programs over lists of settings, and writes their table."""
