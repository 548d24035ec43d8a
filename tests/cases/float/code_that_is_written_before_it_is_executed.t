A store over an instruction of a loop, which is one of floating point from then on.

  $ printf 'go\nregs 0\n' >script
  $ bspemu debug programs/an_instruction_of_floating_point_is_stored.s --format asm --float <script | grep -e '^rank' -e '^x8='
  rank 0 stopped: fault Break
  rank 0 pc 00000044 ticks 10012 state fault Break
  x8=00000001 x9=00000000 x10=000003e8 x11=000003e8
  $ bspemu run programs/an_instruction_of_floating_point_is_stored.s --format asm --float --report
  superstep 0: w 10012 h 0 m 0 last
  total 10012
  rank 0 stopped: fault Break
  [2]
