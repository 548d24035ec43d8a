  $ bspemu run examples --nodes 0 --format raw
  bspemu: settings refused: BadNodes (stderr)
  [1]
