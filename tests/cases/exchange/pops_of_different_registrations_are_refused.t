  $ cat > program.s <<'END'
  > # Both ranks have areas at 0x2000 and 0x3000. Rank 0 pops the first, and rank 1 the second.
  >     li    a7, 3             # pid()
  >     ecall
  >     mv    s0, a0
  >     li    a0, 0x2000
  >     li    a1, 4
  >     li    a7, 5             # push_reg(0x2000, 4)
  >     ecall
  >     li    a0, 0x3000        # push_reg(0x3000, 4)
  >     ecall
  >     li    a7, 4             # sync()
  >     ecall
  >     bnez  s0, pop
  >     li    a0, 0x2000
  > pop:
  >     li    a7, 6             # pop_reg(a0)
  >     ecall
  >     li    a7, 4             # sync()
  >     ecall
  > END
  $ bspemu run program.s --format asm --nodes 2 --report --ledger 1
  superstep 0: w 13 h 0 turned
  superstep 1: w 7 h 0 last
  total 20
  refused: SlotMismatch rank 1
  [4]
