  $ bspemu run programs/a_put_of_no_bytes_at_the_end_of_an_area_lands_nothing.s --format asm --nodes 2 --report --ledger 1
  \x00\x00\x00\x00\x00\x00\x00\x00\x00\x00\x00\x00\x00\x00\x00\x00superstep 0: w 10 h 0 turned (esc)
  superstep 1: w 16 h 0 turned
  superstep 2: w 7 h 0 last
  total 33
  ended
