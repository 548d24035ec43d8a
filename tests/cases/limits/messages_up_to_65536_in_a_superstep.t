  $ cat > program.s <<'END'
  > # Superstep 0 sends 65,536 messages of one byte each, and all of them are received. Superstep 1 sends as many, and one more is
  > # refused.
  >     li    a0, 0
  >     li    a1, 0x500
  >     li    a2, 0x500
  >     li    a3, 1
  >     li    a7, 12            # send(0, 0x500, 0x500, 1)
  >     li    s0, 65536
  > first:
  >     ecall
  >     addi  s0, s0, -1
  >     bnez  s0, first
  >     li    a7, 4             # sync()
  >     ecall
  >     li    a7, 12            # send(0, 0x500, 0x500, 1)
  >     li    s0, 65536
  > second:
  >     ecall
  >     addi  s0, s0, -1
  >     bnez  s0, second
  >     ecall                   # once more
  > END
  $ bspemu run program.s --format asm --report --ledger 1
  superstep 0: w 196617 h 65536 turned
  superstep 1: w 196612 h 0 last
  total 458765
  rank 0 stopped: fault TooMuch
  [2]
