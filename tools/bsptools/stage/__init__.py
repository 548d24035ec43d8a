"""What `bsprun --page` writes: a page in one file with the machine, a program, its sources and its input, in which a run is shown."""
