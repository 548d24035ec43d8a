  $ cat > program.s <<'END'
  > # A message of five bytes is left unread. After each of two syncs it is written how many messages and bytes there are.
  >     li    a0, 0
  >     li    a1, 0
  >     li    a2, 0x1000
  >     li    a3, 5
  >     li    a7, 12            # send(0, 0, 0x1000, 5)
  >     ecall
  >     li    s0, 2
  > again:
  >     li    a7, 4             # sync()
  >     ecall
  >     li    a0, 0x1000
  >     li    a1, 0x1004
  >     li    a7, 13            # qsize(0x1000, 0x1004)
  >     ecall
  >     li    a1, 8
  >     li    a7, 17            # write(0x1000, 8)
  >     ecall
  >     addi  s0, s0, -1
  >     bnez  s0, again
  >     li    a7, 1             # end()
  >     ecall
  > END
  $ bspemu run program.s --format asm --report --ledger 1
  \x01\x00\x00\x00\x05\x00\x00\x00\x00\x00\x00\x00\x00\x00\x00\x00superstep 0: w 10 h 5 turned (esc)
  superstep 1: w 13 h 0 turned
  superstep 2: w 13 h 0 last
  total 41
  ended
