  $ bspemu run examples/one_put.s --format asm --nodes 2 --report --g 2 --l 10 --ledger 1
  superstep 0: w 6 h 0 turned
  superstep 1: w 12 h 4 turned
  superstep 2: w 2 h 0 last
  total 58
  ended
