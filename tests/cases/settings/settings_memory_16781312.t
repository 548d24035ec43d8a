  $ bspemu run examples/ranks.raw --memory 16781312 --format raw
  bspemu: settings refused: BadMemory (stderr)
  [1]
