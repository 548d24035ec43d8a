Each atomic memory operation at values at the edges, and SC with each kind of reservation. Without the option the first of them is illegal.

  $ bspemu run programs/instructions_of_extension_a.s --format asm --atomic
  ok
  $ bspemu run programs/instructions_of_extension_a.s --format asm --report
  superstep 0: w 9 h 0 m 0 last
  total 9
  rank 0 stopped: fault IllegalInstruction
  [2]
