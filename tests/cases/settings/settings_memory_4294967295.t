  $ bspemu run examples/ranks.raw --memory 4294967295 --format raw
  bspemu: settings refused: BadMemory (stderr)
  [1]
