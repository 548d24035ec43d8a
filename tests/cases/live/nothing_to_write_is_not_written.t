  $ bspemu run examples/one_put.s --format asm --nodes 2 --live >&-
