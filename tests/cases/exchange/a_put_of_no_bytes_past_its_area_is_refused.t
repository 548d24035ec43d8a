  $ cat > program.s <<'END'
  > # Rank 1 puts no bytes at the byte after the end of an area of four bytes.
  >     li    a7, 3             # pid()
  >     ecall
  >     mv    s0, a0
  >     li    a0, 0x2000
  >     li    a1, 4
  >     li    a7, 5             # push_reg(0x2000, 4)
  >     ecall
  >     li    a7, 4             # sync()
  >     ecall
  >     beqz  s0, exchange
  >     li    a0, 0
  >     li    a1, 0x1000
  >     li    a2, 0x2000
  >     li    a3, 5
  >     li    a4, 0
  >     li    a7, 7             # put(0, 0x1000, 0x2000, 5, 0)
  >     ecall
  > exchange:
  >     li    a7, 4             # sync()
  >     ecall
  > END
  $ bspemu run program.s --format asm --nodes 2 --report --ledger 1
  superstep 0: w 10 h 0 turned
  superstep 1: w 12 h 0 last
  total 22
  refused: OutsideArea rank 1 request 0
  [4]
