  $ bspemu run examples/ranks.raw --format raw --workers 65
  bspemu: settings refused: BadWorkers (stderr)
  [1]
