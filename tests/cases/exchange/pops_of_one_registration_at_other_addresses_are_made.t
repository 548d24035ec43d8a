  $ cat > program.s <<'END'
  > # Rank 0 has areas at 0x2000 and 0x3000, rank 1 at 0x1000 and 0x2000. Both pop their first, so rank 1's put of a word into its area at
  > # 0x2000 lands in that of rank 0 at 0x3000.
  >     li    a7, 3             # pid()
  >     ecall
  >     mv    s0, a0
  >     li    s1, 0x1000
  >     bnez  s0, register
  >     li    s1, 0x2000
  > register:
  >     mv    a0, s1
  >     li    a1, 4
  >     li    a7, 5             # push_reg(s1, 4)
  >     ecall
  >     li    t0, 0x1000
  >     add   a0, s1, t0
  >     ecall                   # push_reg(s1 + 0x1000, 4)
  >     li    a7, 4             # sync()
  >     ecall
  >     mv    a0, s1
  >     li    a7, 6             # pop_reg(s1)
  >     ecall
  >     li    a7, 4             # sync()
  >     ecall
  >     beqz  s0, exchange
  >     li    t1, 0x64636261    # abcd
  >     sw    t1, 0(t0)
  >     li    a0, 0
  >     mv    a1, t0
  >     li    a2, 0x2000
  >     li    a3, 0
  >     li    a4, 4
  >     li    a7, 7             # put(0, 0x1000, 0x2000, 0, 4)
  >     ecall
  > exchange:
  >     li    a7, 4             # sync()
  >     ecall
  >     bnez  s0, end
  >     li    a0, 0x3000
  >     li    a1, 4
  >     li    a7, 17            # write(0x3000, 4)
  >     ecall
  > end:
  >     li    a7, 1             # end()
  >     ecall
  > END
  $ bspemu run program.s --format asm --nodes 2 --report --ledger 1
  abcdsuperstep 0: w 18 h 0 turned
  superstep 1: w 5 h 0 turned
  superstep 2: w 14 h 4 turned
  superstep 3: w 8 h 0 last
  total 49
  ended
