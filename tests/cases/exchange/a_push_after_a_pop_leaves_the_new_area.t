  $ cat > program.s <<'END'
  > # An area of four bytes is popped, and then pushed with eight: a put into bytes 4 to 7 keeps to it.
  >     li    a0, 0x2000
  >     li    a1, 4
  >     li    a7, 5             # push_reg(0x2000, 4)
  >     ecall
  >     li    a7, 4             # sync()
  >     ecall
  >     li    a0, 0x2000
  >     li    a7, 6             # pop_reg(0x2000)
  >     ecall
  >     li    a0, 0x2000
  >     li    a1, 8
  >     li    a7, 5             # push_reg(0x2000, 8)
  >     ecall
  >     li    a7, 4             # sync()
  >     ecall
  >     li    a0, 0
  >     li    a1, 0x1000
  >     li    a2, 0x2000
  >     li    a3, 4
  >     li    a4, 4
  >     li    a7, 7             # put(0, 0x1000, 0x2000, 4, 4)
  >     ecall
  >     li    a7, 4             # sync()
  >     ecall
  >     li    a7, 1             # end()
  >     ecall
  > END
  $ bspemu run program.s --format asm --report --ledger 1
  superstep 0: w 7 h 0 turned
  superstep 1: w 11 h 0 turned
  superstep 2: w 11 h 4 turned
  superstep 3: w 2 h 0 last
  total 35
  ended
