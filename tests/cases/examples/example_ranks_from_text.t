  $ bspemu run examples/ranks.s --format asm --nodes 3
  012 (no-eol)
