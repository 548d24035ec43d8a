  $ bspemu run programs/a_put_has_the_bytes_of_its_call.s --format asm --nodes 2 --report --ledger 1
  \x00\x00\x00\x00D3"\x11superstep 0: w 10 h 0 turned (esc)
  superstep 1: w 20 h 4 turned
  superstep 2: w 6 h 0 last
  total 40
  ended
