  $ cat > program.s <<'END'
  > # An area is popped, and a put into it in the same superstep lands. In the next superstep the same put is a fault.
  >     li    a0, 0x2000
  >     li    a1, 4
  >     li    a7, 5             # push_reg(0x2000, 4)
  >     ecall
  >     li    a7, 4             # sync()
  >     ecall
  >     li    a7, 6             # pop_reg(0x2000)
  >     ecall
  > again:
  >     li    a0, 0
  >     la    a1, text
  >     li    a2, 0x2000
  >     li    a3, 0
  >     li    a4, 4
  >     li    a7, 7             # put(0, text, 0x2000, 0, 4)
  >     ecall
  >     li    a7, 4             # sync()
  >     ecall
  >     mv    a0, a2
  >     li    a1, 4
  >     li    a7, 17            # write(0x2000, 4)
  >     ecall
  >     j     again
  > text:
  >     .ascii "abcd"
  > END
  $ bspemu run program.s --format asm --report --ledger 1
  abcdsuperstep 0: w 7 h 0 turned
  superstep 1: w 13 h 4 turned
  superstep 2: w 14 h 0 last
  total 38
  rank 0 stopped: fault NotRegistered
  [2]
