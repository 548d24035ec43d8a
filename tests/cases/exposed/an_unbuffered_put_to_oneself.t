A node puts eight bytes of itself four bytes further: the four that are read and written are exposed by the call alone. In superstep 2 it puts
them to where they are, which writes only what is there.

  $ cat > program.s <<'END'
  >     li    a0, 0x2000
  >     li    a1, 16
  >     li    a7, 5             # push_reg(0x2000, 16)
  >     ecall
  >     li    a7, 4             # sync()
  >     ecall
  >     li    a0, 0
  >     li    a1, 0x2000
  >     li    a2, 0x2000
  >     li    a3, 4
  >     li    a4, 8
  >     li    a7, 9             # hpput(0, 0x2000, 0x2000, 4, 8)
  >     ecall
  >     li    a7, 4             # sync()
  >     ecall
  >     li    a0, 0
  >     li    a3, 0
  >     li    a7, 9             # hpput(0, 0x2000, 0x2000, 0, 8)
  >     ecall
  >     li    a7, 4             # sync()
  >     ecall
  >     li    a7, 1             # end()
  >     ecall
  > END
  $ bspemu run program.s --format asm --exposed exposed.csv
  $ cat exposed.csv
  superstep,rank,address,bytes,reader_kind,reader_rank,reader_request,reader_pc,writer_kind,writer_rank,writer_request,writer_pc
  1,0,00002004,4,hpput,0,0,0000003c,hpput,0,0,0000003c
