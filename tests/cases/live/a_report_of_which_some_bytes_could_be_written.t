  $ with-room 29 bspemu run examples/prefix_sum_put.s --format asm --nodes 4 --live --report > out
  bspemu: write failed (stderr)
  [6]
  $ cat out
  1
  3
  6
  10
  superstep 0: w 18 h  (no-eol)
