  $ bspemu run examples/give_up.s --format asm --nodes 3
  stop (no-eol)
  [2]
