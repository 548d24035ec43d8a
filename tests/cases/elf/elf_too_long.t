  $ bspemu list /dev/zero
  bspemu: too long (stderr)
  [1]
