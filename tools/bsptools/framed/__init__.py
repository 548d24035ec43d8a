"""Framed sessions with `bspemu debug`, and what they find: repeated runs, backtraces, environment calls."""
