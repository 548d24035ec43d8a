  $ cat > program.s <<'END'
  > # Ranks 0 and 1 wait for the end of the superstep, with different tag sizes, and rank 2 ends.
  >     li    a7, 3             # pid()
  >     ecall
  >     mv    s0, a0
  >     beqz  s0, wait
  >     li    a0, 0x1000
  >     sw    s0, 0(a0)
  >     li    a7, 11            # set_tagsize(0x1000)
  >     ecall
  >     li    t0, 1
  >     li    a7, 1             # end()
  >     bne   s0, t0, call
  > wait:
  >     li    a7, 4             # sync()
  > call:
  >     ecall
  > END
  $ bspemu run program.s --format asm --nodes 3 --report --ledger 1
  superstep 0: w 14 h 0 last
  total 14
  desync: rank 2 ended, rank 0 synced
  [4]
