  $ bspemu run examples/ranks.raw --memory 4096 --format raw
  0 (no-eol)
