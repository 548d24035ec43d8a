  $ bspemu run programs/a_tag_size_is_in_effect_from_the_next_superstep.s --format asm --nodes 2 --report --ledger 1
  \x00\x00\x00\x00\x00\x00\x00\x00\x02\x00\x00\x00\x00\x00\x00\x00\x00\x00\x00\x00\x00\x00\x00\x00....\x02\x00\x00\x00\x00\x00\x00\x00\x00\x00\x00\x00\x00\x00\x00\x00abcdsuperstep 0: w 28 h 2 turned (esc)
  superstep 1: w 13 h 6 turned
  superstep 2: w 13 h 0 last
  total 62
  ended
