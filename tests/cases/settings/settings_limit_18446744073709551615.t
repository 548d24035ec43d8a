  $ bspemu run examples/ranks.raw --limit 18446744073709551615 --format raw
  bspemu: settings refused: BadLimit (stderr)
  [1]
