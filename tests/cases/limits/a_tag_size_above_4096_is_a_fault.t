  $ cat > program.s <<'END'
  > # The size 4096 is taken, and 4097 is not.
  >     li    a0, 0x1000
  >     li    t0, 0x1000
  >     sw    t0, 0(a0)
  >     li    a7, 11            # set_tagsize(0x1000)
  >     ecall
  >     addi  t0, t0, 1
  >     sw    t0, 0(a0)
  >     ecall                   # set_tagsize(0x1000)
  > END
  $ bspemu run program.s --format asm --report --ledger 1
  superstep 0: w 10 h 0 last
  total 10
  rank 0 stopped: fault BadSize
  [2]
