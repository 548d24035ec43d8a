A program that only a large machine takes is listed with --large.

  $ cp examples/ranks.elf image
  $ truncate -s 33554433 image
  $ bspemu list image
  bspemu: too long (stderr)
  [1]
  $ bspemu list examples/ranks.elf > usual
  $ bspemu list image --large | cmp - usual
