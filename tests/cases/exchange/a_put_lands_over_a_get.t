  $ bspemu run programs/a_put_lands_over_a_get.s --format asm --report --ledger 1
  oversuperstep 0: w 10 h 0 turned
  superstep 1: w 18 h 8 turned
  superstep 2: w 7 h 0 last
  total 43
  ended
