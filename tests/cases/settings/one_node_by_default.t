  $ bspemu run examples/ranks.raw --format raw
  0 (no-eol)
