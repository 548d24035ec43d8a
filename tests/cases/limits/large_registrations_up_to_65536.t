A node of a large machine has at most 65,536 areas.

  $ cat > program.s <<'END'
  > # Superstep 0 registers 65,536 areas, and one more is refused in superstep 1.
  >     li    a0, 0x400
  >     li    a1, 4
  >     li    a7, 5             # push_reg(0x400, 4)
  >     li    s0, 65536
  > again:
  >     ecall
  >     addi  s0, s0, -1
  >     bnez  s0, again
  >     li    a7, 4             # sync()
  >     ecall
  >     li    a7, 5             # push_reg(0x400, 4)
  >     ecall
  > END
  $ bspemu run program.s --format asm --report --ledger 1 --large
  superstep 0: w 196615 h 0 turned
  superstep 1: w 2 h 0 last
  total 196617
  rank 0 stopped: fault TooMuch
  [2]
