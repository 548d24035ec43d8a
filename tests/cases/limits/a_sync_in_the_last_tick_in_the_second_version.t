  $ bspemu run programs/one_sync.s --format asm --limit 2 --report
  superstep 0: w 2 h 0 m 0 turned
  superstep 1: w 0 h 0 m 0 last
  total 2
  rank 0 stopped: exhausted
  [3]
