  $ bspemu run examples/one_put.s --format asm --counts none/counts
  bspemu: cannot open none/counts (stderr)
  [6]
