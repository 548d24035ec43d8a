"""What `bsprun --portable` does: runs under other choices of the library, and what they find."""
