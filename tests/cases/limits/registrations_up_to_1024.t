  $ cat > program.s <<'END'
  > # Superstep 0 registers 1,024 areas. In superstep 1 one of them goes and another comes. In superstep 2 one more is refused, though
  > # nothing else was pushed in it.
  >     li    a0, 0x400
  >     li    a1, 4
  >     li    a7, 5             # push_reg(0x400, 4)
  >     li    s0, 1024
  > again:
  >     ecall
  >     addi  s0, s0, -1
  >     bnez  s0, again
  >     li    a7, 4             # sync()
  >     ecall
  >     li    a7, 6             # pop_reg(0x400)
  >     ecall
  >     li    a7, 5             # push_reg(0x400, 4)
  >     ecall
  >     li    a7, 4             # sync()
  >     ecall
  >     li    a7, 5             # push_reg(0x400, 4)
  >     ecall
  > END
  $ bspemu run program.s --format asm --report --ledger 1
  superstep 0: w 3078 h 0 turned
  superstep 1: w 6 h 0 turned
  superstep 2: w 2 h 0 last
  total 3086
  rank 0 stopped: fault TooMuch
  [2]
