  $ bspemu run examples --format raw
  bspemu: read failed (stderr)
  [6]
