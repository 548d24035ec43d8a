  $ bspemu --version >&-
  bspemu: write failed (stderr)
  [6]
