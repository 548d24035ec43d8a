  $ bspemu run examples/ranks.raw --limit 0 --memory 1 --format raw
  bspemu: settings refused: BadMemory (stderr)
  [1]
