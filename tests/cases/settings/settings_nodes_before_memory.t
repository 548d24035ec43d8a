  $ bspemu run examples/ranks.raw --memory 1 --limit 0 --nodes 0 --format raw
  bspemu: settings refused: BadNodes (stderr)
  [1]
