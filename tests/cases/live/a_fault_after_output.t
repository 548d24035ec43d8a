  $ bspemu run programs/lines_up_to_a_fault.s --format asm --nodes 3 --live --report
  0 0
  1 0
  2 0
  0 1
  1 1
  2 1
  0 2
  1 2
  2 2
  superstep 0: w 16 h 0 m 0 turned
  superstep 1: w 11 h 0 m 0 turned
  superstep 2: w 14 h 0 m 0 last
  total 41
  rank 1 stopped: fault IllegalInstruction
  [2]
  $ diff <(bspemu run programs/lines_up_to_a_fault.s --format asm --nodes 3 --report) <(bspemu run programs/lines_up_to_a_fault.s --format asm --nodes 3 --live --report)
