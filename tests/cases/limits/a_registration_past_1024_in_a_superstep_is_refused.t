  $ cat > program.s <<'END'
  > # 1,025 registrations in one superstep: the last is refused.
  >     li    a0, 0x2000
  >     li    a1, 4
  >     li    a7, 5             # push_reg(0x2000, 4)
  >     li    s0, 1025
  > again:
  >     ecall
  >     addi  s0, s0, -1
  >     bnez  s0, again
  >     li    a7, 1             # end()
  >     ecall
  > END
  $ bspemu run program.s --format asm --report --ledger 1
  superstep 0: w 3078 h 0 last
  total 3078
  rank 0 stopped: fault TooMuch
  [2]
