  $ bspemu run examples/ranks.raw --memory 4095 --format raw
  bspemu: settings refused: BadMemory (stderr)
  [1]
