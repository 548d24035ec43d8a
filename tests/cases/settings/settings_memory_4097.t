  $ bspemu run examples/ranks.raw --memory 4097 --format raw
  bspemu: settings refused: BadMemory (stderr)
  [1]
