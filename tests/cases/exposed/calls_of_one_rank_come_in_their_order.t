Rank 0 puts a word, then has hpget bring another one to its place, and puts it once more. The first put has read before hpget is called, and
the second one may read before or after hpget writes. Its request is number 2.

  $ cat > program.s <<'END'
  >     li    a7, 3             # pid()
  >     ecall
  >     mv    s0, a0
  >     li    a0, 0x2000
  >     li    a1, 4
  >     li    a7, 5             # push_reg(0x2000, 4)
  >     ecall
  >     li    a7, 4             # sync()
  >     ecall
  >     bnez  s0, done
  >     jal   s1, put
  >     li    a0, 1
  >     li    a1, 0x2000
  >     li    a2, 0
  >     li    a3, 0x1000
  >     li    a4, 4
  >     li    a7, 10            # hpget(1, 0x2000, 0, 0x1000, 4)
  >     ecall
  >     jal   s1, put
  > done:
  >     li    a7, 4             # sync()
  >     ecall
  >     li    a7, 1             # end()
  >     ecall
  > put:
  >     li    a0, 2
  >     li    a1, 0x1000
  >     li    a2, 0x2000
  >     li    a3, 0
  >     li    a4, 4
  >     li    a7, 7             # put(2, 0x1000, 0x2000, 0, 4)
  >     ecall
  >     jr    s1
  > END
  $ bspemu run program.s --format asm --nodes 3 --exposed exposed.csv
  $ cat exposed.csv
  superstep,rank,address,bytes,reader_kind,reader_rank,reader_request,reader_pc,writer_kind,writer_rank,writer_request,writer_pc
  1,0,00001000,4,put,0,2,00000088,hpget,0,1,00000050
