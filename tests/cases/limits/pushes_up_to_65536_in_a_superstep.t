  $ cat > program.s <<'END'
  > # Superstep 0 registers an area and ends its registration, 65,536 times. Superstep 1 does the same, and then one push more is
  > # refused, though no area is registered.
  >     li    a0, 0x400
  >     li    a1, 4
  >     li    s0, 65536
  > first:
  >     li    a7, 5             # push_reg(0x400, 4)
  >     ecall
  >     li    a7, 6             # pop_reg(0x400)
  >     ecall
  >     addi  s0, s0, -1
  >     bnez  s0, first
  >     li    a7, 4             # sync()
  >     ecall
  >     li    s0, 65536
  > second:
  >     li    a7, 5             # push_reg(0x400, 4)
  >     ecall
  >     li    a7, 6             # pop_reg(0x400)
  >     ecall
  >     addi  s0, s0, -1
  >     bnez  s0, second
  >     li    a7, 5             # push_reg(0x400, 4)
  >     ecall
  > END
  $ bspemu run program.s --format asm --report --ledger 1
  superstep 0: w 393222 h 0 turned
  superstep 1: w 393220 h 0 last
  total 786442
  rank 0 stopped: fault TooMuch
  [2]
