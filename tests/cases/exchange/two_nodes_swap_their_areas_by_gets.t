  $ bspemu run programs/two_nodes_swap_their_areas_by_gets.s --format asm --nodes 2 --report --ledger 1
  """"\x11\x11\x11\x11superstep 0: w 18 h 0 turned (esc)
  superstep 1: w 11 h 4 turned
  superstep 2: w 7 h 0 last
  total 40
  ended
