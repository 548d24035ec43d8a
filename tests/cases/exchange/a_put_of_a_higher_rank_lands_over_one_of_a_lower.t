  $ cat > program.s <<'END'
  > # Ranks 0 and 1 put four bytes each at the same place of rank 2, which writes its area of eight bytes.
  >     li    a7, 3             # pid()
  >     ecall
  >     mv    s0, a0
  >     li    a0, 0x2000
  >     li    a1, 8
  >     li    a7, 5             # push_reg(0x2000, 8)
  >     ecall
  >     li    a7, 4             # sync()
  >     ecall
  >     li    s1, 2
  >     beq   s0, s1, exchange
  >     li    t0, 0x1000
  >     li    t1, 0x44332211    # 11 22 33 44
  >     beqz  s0, put
  >     li    t1, 0x88776655    # 55 66 77 88
  > put:
  >     sw    t1, 0(t0)
  >     li    a0, 2
  >     li    a1, 0x1000
  >     li    a2, 0x2000
  >     li    a3, 0
  >     li    a4, 4
  >     li    a7, 7             # put(2, 0x1000, 0x2000, 0, 4)
  >     ecall
  > exchange:
  >     li    a7, 4             # sync()
  >     ecall
  >     bne   s0, s1, done
  >     li    a0, 0x2000
  >     li    a1, 8
  >     li    a7, 17            # write(0x2000, 8)
  >     ecall
  > done:
  >     li    a7, 1             # end()
  >     ecall
  > END
  $ bspemu run program.s --format asm --nodes 3 --report --ledger 1
  Ufw\x88\x00\x00\x00\x00superstep 0: w 10 h 0 turned (esc)
  superstep 1: w 21 h 8 turned
  superstep 2: w 8 h 0 last
  total 47
  ended
