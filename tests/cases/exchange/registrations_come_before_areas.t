  $ cat > program.s <<'END'
  > # Rank 0 puts past its area, and rank 1 makes another push.
  >     li    a7, 3             # pid()
  >     ecall
  >     mv    s0, a0
  >     li    a0, 0x1000
  >     li    a1, 4
  >     li    a7, 5             # push_reg(0x1000, 4)
  >     ecall
  >     li    a7, 4             # sync()
  >     ecall
  >     li    a7, 5
  >     bnez  s0, call          # push_reg(0x1000, 4)
  >     li    a0, 0
  >     li    a1, 0x1000
  >     li    a2, 0x1000
  >     li    a3, 4
  >     li    a4, 4
  >     li    a7, 7             # put(0, 0x1000, 0x1000, 4, 4)
  > call:
  >     ecall
  >     li    a7, 4             # sync()
  >     ecall
  > END
  $ bspemu run program.s --format asm --nodes 2 --report --ledger 1
  superstep 0: w 10 h 0 turned
  superstep 1: w 13 h 0 last
  total 23
  refused: SlotMismatch rank 1
  [4]
