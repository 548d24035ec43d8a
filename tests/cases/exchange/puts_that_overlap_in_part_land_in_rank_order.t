  $ bspemu run programs/puts_that_overlap_in_part_land_in_rank_order.s --format asm --nodes 3 --report --ledger 1
  \x11"Ufw\x88\x00\x00superstep 0: w 10 h 0 turned (esc)
  superstep 1: w 21 h 8 turned
  superstep 2: w 8 h 0 last
  total 47
  ended
