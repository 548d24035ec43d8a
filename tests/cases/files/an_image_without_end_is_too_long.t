  $ bspemu run /dev/zero --format raw
  bspemu: too long (stderr)
  [1]
