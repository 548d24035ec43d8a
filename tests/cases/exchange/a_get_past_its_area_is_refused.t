  $ cat > program.s <<'END'
  > # After a send, rank 1 asks twice for bytes past the area. Requests are counted from 0, and the first of the two is named.
  >     li    a7, 3             # pid()
  >     ecall
  >     mv    s0, a0
  >     li    a0, 0x2000
  >     li    a1, 4
  >     li    a7, 5             # push_reg(0x2000, 4)
  >     ecall
  >     li    a7, 4             # sync()
  >     ecall
  >     beqz  s0, exchange
  >     li    a0, 0
  >     li    a1, 0
  >     li    a2, 0x1000
  >     li    a3, 4
  >     li    a7, 12            # send(0, 0, 0x1000, 4)
  >     ecall
  >     li    a1, 0x2000
  >     li    a2, 1
  >     li    a3, 0x1000
  >     li    a4, 4
  >     li    a7, 8             # get(0, 0x2000, 1, 0x1000, 4)
  >     ecall
  >     ecall                   # and again
  > exchange:
  >     li    a7, 4             # sync()
  >     ecall
  > END
  $ bspemu run program.s --format asm --nodes 2 --report --ledger 1
  superstep 0: w 10 h 0 turned
  superstep 1: w 19 h 0 last
  total 29
  refused: OutsideArea rank 1 request 1
  [4]
