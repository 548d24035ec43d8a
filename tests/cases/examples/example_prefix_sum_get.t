  $ bspemu run examples/prefix_sum_get.s --format asm --nodes 4 --report --ledger 1
  1
  3
  6
  10
  superstep 0: w 18 h 0 turned
  superstep 1: w 12 h 4 turned
  superstep 2: w 17 h 4 turned
  superstep 3: w 37 h 0 last
  total 92
  ended
  $ bspemu run examples/prefix_sum_get.s --format asm --nodes 4 --report --g 4 --l 1000 --ledger 1
  1
  3
  6
  10
  superstep 0: w 18 h 0 turned
  superstep 1: w 12 h 4 turned
  superstep 2: w 17 h 4 turned
  superstep 3: w 37 h 0 last
  total 4116
  ended
  $ bspemu run examples/prefix_sum_get.s --format asm --nodes 1 --report --ledger 1
  1
  superstep 0: w 18 h 0 turned
  superstep 1: w 26 h 0 last
  total 44
  ended
  $ bspemu run examples/prefix_sum_get.s --format asm --nodes 5 --report --ledger 1
  1
  3
  6
  10
  15
  superstep 0: w 18 h 0 turned
  superstep 1: w 12 h 4 turned
  superstep 2: w 17 h 4 turned
  superstep 3: w 17 h 4 turned
  superstep 4: w 37 h 0 last
  total 113
  ended
