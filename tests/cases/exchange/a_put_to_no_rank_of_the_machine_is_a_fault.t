  $ cat > program.s <<'END'
  > # Each of three ranks puts four bytes to rank 3, which there is not. No area is registered, and the rank is tested first.
  >     li    a0, 3
  >     li    a1, 0x1000
  >     li    a2, 0x2000
  >     li    a3, 0
  >     li    a4, 4
  >     li    a7, 7             # put(3, 0x1000, 0x2000, 0, 4)
  >     ecall
  >     li    a7, 1             # end()
  >     ecall
  > END
  $ bspemu run program.s --format asm --nodes 3 --report
  superstep 0: w 9 h 0 m 0 last
  total 9
  rank 0 stopped: fault BadRank
  [2]
