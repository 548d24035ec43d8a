  $ bspemu run examples/ranks.raw --format raw --input /dev/zero
  bspemu: too long (stderr)
  [1]
