  $ cat > program.s <<'END'
  > # An area that was registered once is popped twice in a superstep.
  >     li    a0, 0x2000
  >     li    a1, 4
  >     li    a7, 5             # push_reg(0x2000, 4)
  >     ecall
  >     li    a7, 4             # sync()
  >     ecall
  >     li    a7, 6             # pop_reg(0x2000)
  >     ecall
  >     ecall                   # pop_reg(0x2000)
  > END
  $ bspemu run program.s --format asm --report --ledger 1
  superstep 0: w 7 h 0 turned
  superstep 1: w 3 h 0 last
  total 10
  rank 0 stopped: fault NotRegistered
  [2]
