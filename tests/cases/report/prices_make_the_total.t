  $ bspemu run programs/two_supersteps.s --format asm --g 3 --l 100 --report --ledger 1
  superstep 0: w 9 h 4 turned
  superstep 1: w 2 h 0 last
  total 223
  ended
