A large machine may have more than 1,024 nodes.

  $ bspemu run programs/one_sync.s --format asm --nodes 1025 --large --report
  superstep 0: w 2 h 0 m 0 turned
  superstep 1: w 2 h 0 m 0 last
  total 4
  ended
