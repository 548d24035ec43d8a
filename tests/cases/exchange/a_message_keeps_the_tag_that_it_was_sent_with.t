  $ cat > program.s <<'END'
  > # A message is sent with a tag of four bytes in the superstep that ends with the tag size 0. Its tag is written.
  >     li    s0, 0x1000
  >     li    t0, 4
  >     sw    t0, 0(s0)
  >     mv    a0, s0
  >     li    a7, 11            # set_tagsize(0x1000)
  >     ecall
  >     li    a7, 4             # sync()
  >     ecall
  >     sw    x0, 0(s0)
  >     li    a7, 11            # set_tagsize(0x1000)
  >     ecall
  >     li    a0, 0
  >     la    a1, tag
  >     li    a2, 0
  >     li    a3, 0
  >     li    a7, 12            # send(0, tag, 0, 0)
  >     ecall
  >     li    a7, 4             # sync()
  >     ecall
  >     mv    a0, s0
  >     addi  a1, s0, 4
  >     li    a7, 14            # get_tag(0x1000, 0x1004)
  >     ecall
  >     mv    a0, a1
  >     li    a1, 4
  >     li    a7, 17            # write(0x1004, 4)
  >     ecall
  >     li    a7, 1             # end()
  >     ecall
  > tag:
  >     .ascii "kept"
  > END
  $ bspemu run program.s --format asm --report --ledger 1
  keptsuperstep 0: w 9 h 0 turned
  superstep 1: w 12 h 4 turned
  superstep 2: w 10 h 0 last
  total 35
  ended
