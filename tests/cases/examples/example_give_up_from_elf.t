  $ bspemu run examples/give_up.elf --nodes 3
  stop (no-eol)
  [2]
