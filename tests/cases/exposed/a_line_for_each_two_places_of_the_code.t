Rank 0 sends two messages from one place of the code, and hpput of rank 1 writes the bytes of both: one line names one of them. The call of
another place has a line of its own. A message has a tag, too: rank 1 writes only that in superstep 2.

  $ cat > program.s <<'END'
  >     li    a7, 3             # pid()
  >     ecall
  >     mv    s0, a0
  >     li    a0, 0x2000
  >     li    a1, 12
  >     li    a7, 5             # push_reg(0x2000, 12)
  >     ecall
  >     li    a0, 0x1000
  >     li    t0, 2
  >     sw    t0, 0(a0)
  >     li    a7, 11            # set_tagsize(0x1000)
  >     ecall
  >     li    a7, 4             # sync()
  >     ecall
  >     bnez  s0, put
  >     li    a2, 0x2000
  >     jal   s1, send
  >     li    a2, 0x2004
  >     jal   s1, send
  >     li    a0, 1
  >     li    a1, 0x1000
  >     li    a2, 0x2006
  >     li    a3, 4
  >     li    a7, 12            # send(1, 0x1000, 0x2006, 4)
  >     ecall
  >     j     next
  > put:
  >     li    a0, 0
  >     li    a1, 0x1000
  >     li    a2, 0x2000
  >     li    a3, 0
  >     li    a4, 8
  >     li    a7, 9             # hpput(0, 0x1000, 0x2000, 0, 8)
  >     ecall
  > next:
  >     li    a7, 4             # sync()
  >     ecall
  >     bnez  s0, put_tag
  >     li    a0, 1
  >     li    a1, 0x2007
  >     li    a2, 0x1000
  >     li    a3, 4
  >     li    a7, 12            # send(1, 0x2007, 0x1000, 4): the tag is at 0x2007 and 0x2008
  >     ecall
  >     j     last
  > put_tag:
  >     li    a0, 0
  >     li    a1, 0x1000
  >     li    a2, 0x2000
  >     li    a3, 8
  >     li    a4, 4
  >     li    a7, 9             # hpput(0, 0x1000, 0x2000, 8, 4)
  >     ecall
  > last:
  >     li    a7, 4             # sync()
  >     ecall
  >     li    a7, 1             # end()
  >     ecall
  > send:
  >     li    a0, 1
  >     li    a1, 0x1000
  >     li    a3, 4
  >     li    a7, 12            # send(1, 0x1000, a2, 4)
  >     ecall
  >     jr    s1
  > END
  $ bspemu run program.s --format asm --nodes 2 --exposed exposed.csv
  $ cat exposed.csv
  superstep,rank,address,bytes,reader_kind,reader_rank,reader_request,reader_pc,writer_kind,writer_rank,writer_request,writer_pc
  1,0,00002000,4,send,0,0,0000011c,hpput,1,0,000000a0
  1,0,00002006,2,send,0,2,00000078,hpput,1,0,000000a0
  2,0,00002008,1,send,0,0,000000cc,hpput,1,0,000000f4
