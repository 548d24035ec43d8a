  $ bspemu run examples/ranks.elf --nodes 3
  012 (no-eol)
