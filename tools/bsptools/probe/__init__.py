"""`bspprobe`: measures r, g and l of a host."""
