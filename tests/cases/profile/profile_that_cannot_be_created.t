  $ bspemu run examples/one_put.s --format asm --profile none/profile
  bspemu: cannot open none/profile (stderr)
  [6]
