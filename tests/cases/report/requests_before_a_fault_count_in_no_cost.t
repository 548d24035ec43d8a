  $ cat > program.s <<'END'
  > # Rank 0 sends four bytes and waits for the end of the superstep; rank 1 meets an EBREAK.
  >     li    a7, 3             # pid()
  >     ecall
  >     bnez  a0, fault
  >     li    a1, 0
  >     li    a2, 0x1000
  >     li    a3, 4
  >     li    a7, 12            # send(0, 0, 0x1000, 4)
  >     ecall
  >     li    a7, 4             # sync()
  >     ecall
  > fault:
  >     ebreak
  > END
  $ bspemu run program.s --format asm --nodes 2 --report --ledger 1
  superstep 0: w 11 h 0 last
  total 11
  rank 1 stopped: fault Break
  [2]
