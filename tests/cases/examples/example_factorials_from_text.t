  $ bspemu run examples/factorials.s --format asm --nodes 5
  1
  2
  6
  24
  120
