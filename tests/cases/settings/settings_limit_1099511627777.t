  $ bspemu run examples/ranks.raw --limit 1099511627777 --format raw
  bspemu: settings refused: BadLimit (stderr)
  [1]
