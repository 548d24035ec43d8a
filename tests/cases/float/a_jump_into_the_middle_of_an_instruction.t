A loop executes an instruction whole, and a jump leads into its middle, where a compressed one begins.

  $ printf 'go\nregs 0\n' >script
  $ bspemu debug programs/a_jump_into_an_instruction_of_floating_point.s --format asm --float <script | grep -e '^rank' -e '^x8=' -e '^x12='
  rank 0 stopped: fault Break
  rank 0 pc 00000040 ticks 4021 state fault Break
  x8=00000001 x9=00000000 x10=000003ea x11=00000002
  x12=00100100 x13=00000000 x14=00000000 x15=00000000
  $ bspemu run programs/a_jump_into_an_instruction_of_floating_point.s --format asm --float --report
  superstep 0: w 4021 h 0 m 0 last
  total 4021
  rank 0 stopped: fault Break
  [2]
