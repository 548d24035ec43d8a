  $ bspemu run programs/an_area_is_in_effect_from_the_next_superstep.s --format asm --report --ledger 1
  abcdsuperstep 0: w 7 h 0 turned
  superstep 1: w 16 h 4 turned
  superstep 2: w 7 h 0 last
  total 34
  ended
