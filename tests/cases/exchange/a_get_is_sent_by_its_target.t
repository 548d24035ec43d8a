  $ cat > program.s <<'END'
  > # Rank 0 puts four bytes into the area of rank 1, and gets four bytes of it: each rank sends four bytes and receives four.
  >     li    a7, 3             # pid()
  >     ecall
  >     mv    s0, a0
  >     li    a0, 0x2000
  >     li    a1, 4
  >     li    a7, 5             # push_reg(0x2000, 4)
  >     ecall
  >     li    a7, 4             # sync()
  >     ecall
  >     bnez  s0, exchange
  >     li    a0, 1
  >     li    a1, 0x1000
  >     li    a2, 0x2000
  >     li    a3, 0
  >     li    a4, 4
  >     li    a7, 7             # put(1, 0x1000, 0x2000, 0, 4)
  >     ecall
  >     li    a1, 0x2000
  >     li    a2, 0
  >     li    a3, 0x1000
  >     li    a7, 8             # get(1, 0x2000, 0, 0x1000, 4)
  >     ecall
  > exchange:
  >     li    a7, 4             # sync()
  >     ecall
  >     li    a7, 1             # end()
  >     ecall
  > END
  $ bspemu run program.s --format asm --nodes 2 --report --ledger 1
  superstep 0: w 10 h 0 turned
  superstep 1: w 19 h 4 turned
  superstep 2: w 2 h 0 last
  total 35
  ended
