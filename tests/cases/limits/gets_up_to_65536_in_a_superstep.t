  $ cat > program.s <<'END'
  > # Superstep 1 makes 65,536 gets of one byte each, and all of them land. Superstep 2 makes as many, and one more is refused.
  >     li    a0, 0x400
  >     li    a1, 4
  >     li    a7, 5             # push_reg(0x400, 4)
  >     ecall
  >     li    a7, 4             # sync()
  >     ecall
  >     li    a0, 0
  >     li    a1, 0x400
  >     li    a2, 0
  >     li    a3, 0x500
  >     li    a4, 1
  >     li    a7, 8             # get(0, 0x400, 0, 0x500, 1)
  >     li    s0, 65536
  > first:
  >     ecall
  >     addi  s0, s0, -1
  >     bnez  s0, first
  >     li    a7, 4             # sync()
  >     ecall
  >     li    a7, 8             # get(0, 0x400, 0, 0x500, 1)
  >     li    s0, 65536
  > second:
  >     ecall
  >     addi  s0, s0, -1
  >     bnez  s0, second
  >     ecall                   # once more
  > END
  $ bspemu run program.s --format asm --report --ledger 1
  superstep 0: w 6 h 0 turned
  superstep 1: w 196618 h 65536 turned
  superstep 2: w 196612 h 0 last
  total 458772
  rank 0 stopped: fault TooMuch
  [2]
