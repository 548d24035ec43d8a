  $ bspemu run programs/one_sync.s --format asm --limit 4 --report --ledger 1
  superstep 0: w 2 h 0 turned
  superstep 1: w 2 h 0 last
  total 4
  ended
