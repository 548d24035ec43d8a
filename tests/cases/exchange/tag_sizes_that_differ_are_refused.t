  $ cat > program.s <<'END'
  > # Rank 0 sets the tag size to 4, and the others leave it at 0.
  >     li    a7, 3             # pid()
  >     ecall
  >     bnez  a0, exchange
  >     li    a0, 0x1000
  >     li    t0, 4
  >     sw    t0, 0(a0)
  >     li    a7, 11            # set_tagsize(0x1000)
  >     ecall
  > exchange:
  >     li    a7, 4             # sync()
  >     ecall
  > END
  $ bspemu run program.s --format asm --nodes 3 --report --ledger 1
  superstep 0: w 11 h 0 last
  total 11
  refused: TagMismatch rank 1
  [4]
