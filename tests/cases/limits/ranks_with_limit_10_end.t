  $ bspemu run examples/ranks.raw --nodes 3 --limit 10 --format raw
  012 (no-eol)
