  $ bspemu run examples/ranks.raw --nodes 3 --limit 9 --format raw
  012 (no-eol)
  [3]
