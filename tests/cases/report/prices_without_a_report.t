  $ bspemu run examples/ranks.raw --format raw --g 3 --l 100
  0 (no-eol)
