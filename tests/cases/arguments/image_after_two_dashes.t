  $ cat examples/ranks.raw | bspemu run --format raw --nodes 2 -- -
  01 (no-eol)
