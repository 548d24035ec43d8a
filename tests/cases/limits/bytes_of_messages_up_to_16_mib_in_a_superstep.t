  $ cat > program.s <<'END'
  > # Tags have 4,096 bytes from superstep 1 on, which sends a payload of 16,773,120 bytes: with its tag that is 16,777,216, and it is
  > # received. In superstep 2 a message with one byte more is refused.
  >     li    a0, 0x400
  >     li    t0, 4096
  >     sw    t0, 0(a0)
  >     li    a7, 11            # set_tagsize(0x400)
  >     ecall
  >     li    a7, 4             # sync()
  >     ecall
  >     li    a0, 0
  >     li    a1, 0
  >     li    a2, 0
  >     li    a3, 16773120
  >     li    a7, 12            # send(0, 0, 0, 16773120)
  >     ecall
  >     li    a7, 4             # sync()
  >     ecall
  >     li    a3, 16773121
  >     li    a7, 12            # send(0, 0, 0, 16773121)
  >     ecall
  > END
  $ bspemu run program.s --format asm --memory 16777216 --report --ledger 1
  superstep 0: w 8 h 0 turned
  superstep 1: w 9 h 16777216 turned
  superstep 2: w 4 h 0 last
  total 16777237
  rank 0 stopped: fault TooMuch
  [2]
