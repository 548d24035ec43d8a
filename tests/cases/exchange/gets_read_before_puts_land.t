  $ bspemu run programs/gets_read_before_puts_land.s --format asm --nodes 2 --report --ledger 1
  """"3333superstep 0: w 23 h 0 turned
  superstep 1: w 15 h 8 turned
  superstep 2: w 6 h 0 last
  total 52
  ended
