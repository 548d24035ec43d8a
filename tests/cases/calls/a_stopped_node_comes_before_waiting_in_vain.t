  $ cat > program.s <<'END'
  > # Rank 0 ends, rank 1 waits for the end of the superstep, and rank 2 meets an EBREAK.
  >     li    a7, 3             # pid()
  >     ecall
  >     li    a7, 1             # end()
  >     beqz  a0, call
  >     li    a7, 4             # sync()
  >     li    t0, 1
  >     beq   a0, t0, call
  >     ebreak
  > call:
  >     ecall
  > END
  $ bspemu run program.s --format asm --nodes 3 --report --ledger 1
  superstep 0: w 8 h 0 last
  total 8
  rank 2 stopped: fault Break
  [2]
