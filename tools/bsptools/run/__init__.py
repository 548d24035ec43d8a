"""`bsprun` and its run: watches it, ends it, and reports the result."""
