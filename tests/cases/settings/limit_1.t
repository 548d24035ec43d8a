  $ bspemu run examples/ranks.raw --limit 1 --format raw
  [3]
