  $ cat examples/ranks.raw | slowly bspemu run - --format raw --nodes 3
  012 (no-eol)
