  $ cat > program.s <<'END'
  > # The area is the whole memory. Superstep 1 makes a get of all its 16,777,216 bytes and one of no bytes, and both are accepted.
  > # Superstep 2 makes the same two, and then one of one byte is refused.
  >     li    a0, 0
  >     li    a1, 0x1000000
  >     li    a7, 5             # push_reg(0, 0x1000000)
  >     ecall
  >     li    a7, 4             # sync()
  >     ecall
  >     li    a1, 0
  >     li    a2, 0
  >     li    a3, 0
  >     li    a7, 8             # get(0, 0, 0, 0, n)
  >     li    a4, 0x1000000     # n
  >     ecall
  >     li    a4, 0
  >     ecall
  >     li    a7, 4             # sync()
  >     ecall
  >     li    a7, 8             # get(0, 0, 0, 0, n)
  >     li    a4, 0x1000000     # n
  >     ecall
  >     li    a4, 0
  >     ecall
  >     li    a4, 1
  >     ecall
  > END
  $ bspemu run program.s --format asm --memory 16777216 --report --ledger 1
  superstep 0: w 7 h 0 turned
  superstep 1: w 11 h 16777216 turned
  superstep 2: w 8 h 0 last
  total 16777242
  rank 0 stopped: fault TooMuch
  [2]
