Both ranks have hpput bring a word of theirs to the other one, whose call reads that word. Both calls are made from one place in the code, so
that one line tells of them. In superstep 2 they do so again, and then rank 1 stops: the exchange that is not made has no lines.

  $ cat > program.s <<'END'
  >     li    a7, 3             # pid()
  >     ecall
  >     mv    s0, a0
  >     li    a0, 0x2000
  >     li    a1, 4
  >     li    a7, 5             # push_reg(0x2000, 4)
  >     ecall
  >     li    a7, 4             # sync()
  >     ecall
  >     jal   s1, put
  >     li    a7, 4             # sync()
  >     ecall
  >     jal   s1, put
  >     beqz  s0, last
  >     ebreak
  > last:
  >     li    a7, 4             # sync()
  >     ecall
  >     li    a7, 1             # end()
  >     ecall
  > put:
  >     xori  a0, s0, 1
  >     li    a1, 0x2000
  >     li    a2, 0x2000
  >     li    a3, 0
  >     li    a4, 4
  >     li    a7, 9             # hpput(the other rank, 0x2000, 0x2000, 0, 4)
  >     ecall
  >     jr    s1
  > END
  $ bspemu run program.s --format asm --nodes 2 --report --exposed exposed.csv
  superstep 0: w 10 h 0 m 0 turned
  superstep 1: w 13 h 4 m 0 turned
  superstep 2: w 14 h 0 m 0 last
  total 41
  rank 1 stopped: fault Break
  [2]
  $ cat exposed.csv
  superstep,rank,address,bytes,reader_kind,reader_rank,reader_request,reader_pc,writer_kind,writer_rank,writer_request,writer_pc
  1,0,00002000,4,hpput,0,0,00000070,hpput,1,0,00000070
