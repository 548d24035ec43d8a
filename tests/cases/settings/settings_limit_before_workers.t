  $ bspemu run examples/ranks.raw --format raw --workers 0 --limit 0
  bspemu: settings refused: BadLimit (stderr)
  [1]
