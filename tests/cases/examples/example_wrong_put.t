  $ bspemu run examples/wrong_put.s --format asm --nodes 4 --report --ledger 1
  673059850
  0
  0
  0
  superstep 0: w 16 h 0 turned
  superstep 1: w 13 h 16 turned
  superstep 2: w 156 h 0 last
  total 201
  ended
