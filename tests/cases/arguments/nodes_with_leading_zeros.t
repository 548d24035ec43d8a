  $ bspemu run examples/ranks.raw --nodes 007 --format raw
  0123456 (no-eol)
