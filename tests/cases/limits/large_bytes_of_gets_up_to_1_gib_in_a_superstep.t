The gets of a node of a large machine have at most 2^30 bytes in a superstep.

  $ cat > program.s <<'END'
  > # A get of 1,073,741,823 bytes and one of 1 byte are accepted, and so is one of no bytes. One more byte is refused.
  >     li    a0, 0
  >     li    a1, 0x40000000
  >     li    a7, 5             # push_reg(0, 0x40000000)
  >     ecall
  >     li    a7, 4             # sync()
  >     ecall
  >     li    a1, 0
  >     li    a2, 0
  >     li    a3, 0
  >     li    a4, 0x3fffffff
  >     li    a7, 8             # get(0, 0, 0, 0, 0x3fffffff)
  >     ecall
  >     li    a4, 1
  >     ecall                   # get(0, 0, 0, 0, 1)
  >     li    a4, 0
  >     ecall                   # get(0, 0, 0, 0, 0)
  >     li    a4, 1
  >     ecall                   # get(0, 0, 0, 0, 1)
  > END
  $ bspemu run program.s --format asm --memory 2147483648 --report --ledger 1 --large
  superstep 0: w 7 h 0 turned
  superstep 1: w 13 h 0 last
  total 20
  rank 0 stopped: fault TooMuch
  [2]
