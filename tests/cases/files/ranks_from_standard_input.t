  $ cat examples/ranks.raw | bspemu run - --format raw --nodes 3
  012 (no-eol)
