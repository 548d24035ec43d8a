  $ cat > program.s <<'END'
  > # Rank 0 registers 4 bytes at 0x2000, and rank 1 registers 8 bytes at 0x3000. Rank 0 puts a word into the area of rank 1, and
  > # names it by 0x2000. Rank 1 writes its word at 0x2000 and its area.
  >     li    a7, 3             # pid()
  >     ecall
  >     mv    s0, a0
  >     li    a0, 0x2000
  >     li    a1, 4
  >     beqz  s0, push
  >     li    a0, 0x3000
  >     li    a1, 8
  > push:
  >     li    a7, 5             # push_reg(a0, a1)
  >     ecall
  >     li    a7, 4             # sync()
  >     ecall
  >     bnez  s0, exchange
  >     li    t0, 0x1000
  >     li    t1, 0x11223344
  >     sw    t1, 0(t0)
  >     li    a0, 1
  >     li    a1, 0x1000
  >     li    a2, 0x2000
  >     li    a3, 0
  >     li    a4, 4
  >     li    a7, 7             # put(1, 0x1000, 0x2000, 0, 4)
  >     ecall
  > exchange:
  >     li    a7, 4             # sync()
  >     ecall
  >     beqz  s0, done
  >     li    a0, 0x2000
  >     li    a1, 4
  >     li    a7, 17            # write(0x2000, 4)
  >     ecall
  >     li    a0, 0x3000
  >     li    a1, 8             # write(0x3000, 8)
  >     ecall
  > done:
  >     li    a7, 1             # end()
  >     ecall
  > END
  $ bspemu run program.s --format asm --nodes 2 --report --ledger 1
  \x00\x00\x00\x00D3"\x11\x00\x00\x00\x00superstep 0: w 14 h 0 turned (esc)
  superstep 1: w 17 h 4 turned
  superstep 2: w 12 h 0 last
  total 47
  ended
