Rank 0 has hpput bring a word into an area, of which its last byte is past the end. The exchange is refused, and nothing is read or written.

  $ cat > program.s <<'END'
  >     li    a0, 0x2000
  >     li    a1, 7
  >     li    a7, 5             # push_reg(0x2000, 7)
  >     ecall
  >     li    a7, 4             # sync()
  >     ecall
  >     li    a0, 0
  >     li    a1, 0x2003
  >     li    a2, 0x2000
  >     li    a3, 4
  >     li    a4, 4
  >     li    a7, 9             # hpput(0, 0x2003, 0x2000, 4, 4)
  >     ecall
  >     li    a7, 4             # sync()
  >     ecall
  >     li    a7, 1             # end()
  >     ecall
  > END
  $ bspemu run program.s --format asm --report --exposed exposed.csv
  superstep 0: w 7 h 0 m 0 turned
  superstep 1: w 11 h 0 m 0 last
  total 18
  refused: OutsideArea rank 0 request 0
  [4]
  $ cat exposed.csv
  superstep,rank,address,bytes,reader_kind,reader_rank,reader_request,reader_pc,writer_kind,writer_rank,writer_request,writer_pc
