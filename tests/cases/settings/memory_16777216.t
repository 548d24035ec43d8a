  $ bspemu run examples/ranks.raw --memory 16777216 --format raw
  0 (no-eol)
