  $ bspemu run examples/ranks.raw --nodes 3 --format raw >&-
  bspemu: write failed (stderr)
  [6]
