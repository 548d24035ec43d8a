  $ cat > program.s <<'END'
  > # Rank 0 asks for nothing. Rank 1 makes a put into its area, a send, a get past its area and another put; rank 2 begins with that get.
  >     li    a7, 3             # pid()
  >     ecall
  >     mv    s0, a0
  >     li    a0, 0x2000
  >     li    a1, 4
  >     li    a7, 5             # push_reg(0x2000, 4)
  >     ecall
  >     li    a7, 4             # sync()
  >     ecall
  >     beqz  s0, exchange
  >     li    t0, 2
  >     beq   s0, t0, get
  >     li    a0, 0
  >     li    a1, 0x1000
  >     li    a2, 0x2000
  >     li    a3, 0
  >     li    a4, 4
  >     li    a7, 7             # put(0, 0x1000, 0x2000, 0, 4)
  >     ecall
  >     li    a2, 0x1000
  >     li    a3, 9
  >     li    a7, 12            # send(0, 0x1000, 0x1000, 9)
  >     ecall
  > get:
  >     li    a0, 2
  >     li    a1, 0x2000
  >     li    a2, 2
  >     li    a3, 0x1000
  >     li    a4, 3
  >     li    a7, 8             # get(2, 0x2000, 2, 0x1000, 3)
  >     ecall
  > exchange:
  >     li    a7, 4             # sync()
  >     ecall
  > END
  $ bspemu run program.s --format asm --nodes 3 --report --ledger 1
  superstep 0: w 10 h 0 turned
  superstep 1: w 28 h 0 last
  total 38
  refused: OutsideArea rank 1 request 2
  [4]
