  $ bspemu run programs/two_supersteps.s --format asm --g 4294967295 --l 4294967295 --report --ledger 1
  superstep 0: w 9 h 4 turned
  superstep 1: w 2 h 0 last
  total 25769803781
  ended
