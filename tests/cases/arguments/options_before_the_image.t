  $ bspemu run --nodes=2 --format=raw examples/ranks.raw
  01 (no-eol)
