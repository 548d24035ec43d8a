  $ bspemu run examples/ranks.raw --format raw --nodes 3
  012 (no-eol)
