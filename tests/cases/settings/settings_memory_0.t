  $ bspemu run examples/ranks.raw --memory 0 --format raw
  bspemu: settings refused: BadMemory (stderr)
  [1]
