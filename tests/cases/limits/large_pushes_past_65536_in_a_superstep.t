A node of a large machine may make more than 65,536 pushes in a superstep.

  $ cat > program.s <<'END'
  > # An area is registered, and its registration ended, 65,537 times.
  >     li    a0, 0x400
  >     li    a1, 4
  >     li    s0, 65537
  > again:
  >     li    a7, 5             # push_reg(0x400, 4)
  >     ecall
  >     li    a7, 6             # pop_reg(0x400)
  >     ecall
  >     addi  s0, s0, -1
  >     bnez  s0, again
  >     li    a7, 1             # end()
  >     ecall
  > END
  $ bspemu run program.s --format asm --report --ledger 1 --large
  superstep 0: w 393228 h 0 last
  total 393228
  ended
