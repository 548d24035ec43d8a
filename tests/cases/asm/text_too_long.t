  $ bspemu run /dev/zero --format asm
  bspemu: too long (stderr)
  [1]
