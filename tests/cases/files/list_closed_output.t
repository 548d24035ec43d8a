  $ bspemu list examples/ranks.elf >&-
  bspemu: write failed (stderr)
  [6]
