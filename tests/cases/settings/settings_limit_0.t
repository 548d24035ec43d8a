  $ bspemu run examples/ranks.raw --limit 0 --format raw
  bspemu: settings refused: BadLimit (stderr)
  [1]
