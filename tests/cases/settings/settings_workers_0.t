  $ bspemu run examples/ranks.raw --format raw --workers 0
  bspemu: settings refused: BadWorkers (stderr)
  [1]
