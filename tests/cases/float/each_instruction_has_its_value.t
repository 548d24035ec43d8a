  $ bspemu run programs/instructions_of_floating_point.s --format asm --float
  ok
  $ bspemu run programs/instructions_of_floating_point.s --format asm --report
  superstep 0: w 8 h 0 m 0 last
  total 8
  rank 0 stopped: fault IllegalInstruction
  [2]
