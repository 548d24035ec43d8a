  $ bspemu run examples/ranks.raw --nodes 4294967295 --format raw
  bspemu: settings refused: BadNodes (stderr)
  [1]
