  $ bspemu run programs/a_put_past_its_area_is_refused.s --format asm --nodes 2 --report --ledger 1
  \xff\xff\xff\xff\x00\x00\x00\x00superstep 0: w 10 h 0 turned (esc)
  superstep 1: w 21 h 0 last
  total 31
  refused: OutsideArea rank 0 request 0
  [4]
