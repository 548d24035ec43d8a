  $ bspemu run examples/factorials.raw --format raw --nodes 5
  1
  2
  6
  24
  120
