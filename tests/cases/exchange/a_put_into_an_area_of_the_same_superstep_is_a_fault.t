  $ bspemu run programs/a_put_into_an_area_of_the_same_superstep_is_a_fault.s --format asm --report --ledger 1
  superstep 0: w 14 h 0 last
  total 14
  rank 0 stopped: fault NotRegistered
  [2]
