A node of a large machine may make more than 65,536 puts in a superstep.

  $ cat > program.s <<'END'
  > # 65,537 puts of one byte each land.
  >     li    a0, 0x400
  >     li    a1, 4
  >     li    a7, 5             # push_reg(0x400, 4)
  >     ecall
  >     li    a7, 4             # sync()
  >     ecall
  >     li    a0, 0
  >     li    a1, 0x500
  >     li    a2, 0x400
  >     li    a3, 0
  >     li    a4, 1
  >     li    a7, 7             # put(0, 0x500, 0x400, 0, 1)
  >     li    s0, 65537
  > again:
  >     ecall
  >     addi  s0, s0, -1
  >     bnez  s0, again
  >     li    a7, 4             # sync()
  >     ecall
  >     li    a7, 1             # end()
  >     ecall
  > END
  $ bspemu run program.s --format asm --report --ledger 1 --large
  superstep 0: w 6 h 0 turned
  superstep 1: w 196621 h 65537 turned
  superstep 2: w 2 h 0 last
  total 262166
  ended
