  $ bspemu run programs/two_supersteps.s --format asm --g 0 --l 0 --report --ledger 1
  superstep 0: w 9 h 4 turned
  superstep 1: w 2 h 0 last
  total 11
  ended
