  $ bspemu run programs/lines_up_to_a_fault.s --format asm --nodes 2 --limit 25 --live --report
  0 0
  1 0
  0 1
  1 1
  superstep 0: w 16 h 0 m 0 turned
  superstep 1: w 9 h 0 m 0 last
  total 25
  rank 0 stopped: exhausted
  [3]
