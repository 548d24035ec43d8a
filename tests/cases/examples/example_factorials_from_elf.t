  $ bspemu run examples/factorials.elf --nodes 5
  1
  2
  6
  24
  120
