  $ bspemu run examples/prefix_sum_put.s --format asm --nodes 4 --live --report
  1
  3
  6
  10
  superstep 0: w 18 h 0 m 0 turned
  superstep 1: w 12 h 4 m 0 turned
  superstep 2: w 17 h 4 m 0 turned
  superstep 3: w 37 h 0 m 0 last
  total 92
  ended
