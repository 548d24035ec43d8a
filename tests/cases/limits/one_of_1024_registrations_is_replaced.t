  $ cat > program.s <<'END'
  > # 1,024 registrations stand. One of them is ended, and another made in its place.
  >     li    a0, 0x2000
  >     li    a1, 4
  >     li    a7, 5             # push_reg(0x2000, 4)
  >     li    s0, 1024
  > again:
  >     ecall
  >     addi  s0, s0, -1
  >     bnez  s0, again
  >     li    a7, 4             # sync()
  >     ecall
  >     li    a7, 6             # pop_reg(0x2000)
  >     ecall
  >     li    a7, 5             # push_reg(0x2000, 4)
  >     ecall
  >     li    a7, 4             # sync()
  >     ecall
  >     li    a7, 1             # end()
  >     ecall
  > END
  $ bspemu run program.s --format asm --report --ledger 1
  superstep 0: w 3079 h 0 turned
  superstep 1: w 6 h 0 turned
  superstep 2: w 2 h 0 last
  total 3087
  ended
