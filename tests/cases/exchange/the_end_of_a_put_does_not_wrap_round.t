  $ cat > program.s <<'END'
  > # The offset and the number of bytes add up to 2^32 + 1, and not to 1.
  >     li    a7, 3             # pid()
  >     ecall
  >     mv    s0, a0
  >     li    a0, 0x2000
  >     li    a1, 4
  >     li    a7, 5             # push_reg(0x2000, 4)
  >     ecall
  >     li    a7, 4             # sync()
  >     ecall
  >     bnez  s0, exchange
  >     li    t0, 0x1000
  >     li    t1, -1
  >     sw    t1, 0(t0)
  >     li    a0, 1
  >     li    a1, 0x1000
  >     li    a2, 0x2000
  >     li    a3, -1
  >     li    a4, 2
  >     li    a7, 7             # put(1, 0x1000, 0x2000, 0xFFFFFFFF, 2)
  >     ecall
  > exchange:
  >     li    a7, 4             # sync()
  >     ecall
  >     li    a0, 0x2000
  >     li    a1, 8
  >     li    a7, 17            # write(0x2000, 8)
  >     ecall
  >     li    a7, 1             # end()
  >     ecall
  > END
  $ bspemu run program.s --format asm --nodes 2 --report --ledger 1
  superstep 0: w 10 h 0 turned
  superstep 1: w 16 h 0 last
  total 26
  refused: OutsideArea rank 0 request 0
  [4]
