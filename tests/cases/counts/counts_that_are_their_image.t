  $ cp examples/one_put.s written
  $ bspemu run written --format asm --nodes 2 --counts written
  bspemu: cannot open written (stderr)
  [6]
  $ cmp written examples/one_put.s
