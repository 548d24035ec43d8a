  $ bspemu run examples/give_up.raw --format raw --nodes 3
  stop (no-eol)
  [2]
