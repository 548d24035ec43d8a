  $ bspemu run examples/ranks.raw --nodes 1025 --format raw
  bspemu: settings refused: BadNodes (stderr)
  [1]
