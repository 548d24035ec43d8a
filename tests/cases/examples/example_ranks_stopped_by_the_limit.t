  $ bspemu run examples/ranks.raw --format raw --nodes 3 --limit 9
  012 (no-eol)
  [3]
