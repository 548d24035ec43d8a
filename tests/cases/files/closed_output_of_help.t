  $ bspemu run --help >&-
  bspemu: write failed (stderr)
  [6]
