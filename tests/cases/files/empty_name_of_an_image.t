  $ bspemu run '' --format raw
  bspemu: cannot open  (stderr)
  [6]
