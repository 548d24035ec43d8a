A node puts eight zeros, and then a byte over the first of them and one over the fifth. Each of the two is contested with the long put, also
the second one, which does not touch the first.

  $ cat > program.s <<'END'
  >     li    a0, 0x2000
  >     li    a1, 8
  >     li    a7, 5             # push_reg(0x2000, 8)
  >     ecall
  >     li    a7, 4             # sync()
  >     ecall
  >     li    a0, 0
  >     li    a1, 0x1000
  >     li    a2, 0x2000
  >     li    a3, 0
  >     li    a4, 8
  >     li    a7, 7             # put(0, 0x1000, 0x2000, 0, 8)
  >     ecall
  >     li    a0, 0
  >     la    a1, one
  >     li    a4, 1
  >     ecall                   # put(0, one, 0x2000, 0, 1)
  >     li    a0, 0
  >     li    a3, 4
  >     ecall                   # put(0, one, 0x2000, 4, 1)
  >     li    a7, 4             # sync()
  >     ecall
  >     li    a7, 1             # end()
  >     ecall
  > one: .byte 1
  > END
  $ bspemu run program.s --format asm --contested contested.csv
  $ cat contested.csv
  superstep,rank,address,bytes,first_kind,first_rank,first_request,first_byte,second_kind,second_rank,second_request,second_byte
  1,0,00002000,1,put,0,0,00,put,0,1,01
  1,0,00002004,1,put,0,0,00,put,0,2,01
