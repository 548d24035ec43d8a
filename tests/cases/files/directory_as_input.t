  $ bspemu run examples/ranks.raw --input examples --format raw
  bspemu: read failed (stderr)
  [6]
