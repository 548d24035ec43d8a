  $ cat > program.s <<'END'
  > # A put of 8,388,608 bytes, a get of 4,194,304, a message of 4,194,288 and 16 bytes of output are 16,777,216 together, and are
  > # accepted; so is one of no bytes of each kind after them. An abort with a text of one byte is refused, and so does not abort.
  >     li    a0, 0
  >     li    a1, 0x1000000
  >     li    a7, 5             # push_reg(0, 0x1000000)
  >     ecall
  >     li    a7, 4             # sync()
  >     ecall
  >     li    a1, 0
  >     li    a2, 0
  >     li    a3, 0
  >     li    a4, 8388608
  >     li    a7, 7             # put(0, 0, 0, 0, 8388608)
  >     ecall
  >     li    a4, 4194304
  >     li    a7, 8             # get(0, 0, 0, 0, 4194304)
  >     ecall
  >     li    a3, 4194288
  >     li    a7, 12            # send(0, 0, 0, 4194288)
  >     ecall
  >     la    a0, text
  >     li    a1, 16
  >     li    a7, 17            # write(text, 16)
  >     ecall
  >     li    a1, 0             # write(text, 0)
  >     ecall
  >     li    a0, 0
  >     li    a3, 0
  >     li    a7, 12            # send(0, 0, 0, 0)
  >     ecall
  >     li    a4, 0
  >     li    a7, 8             # get(0, 0, 0, 0, 0)
  >     ecall
  >     li    a7, 7             # put(0, 0, 0, 0, 0)
  >     ecall
  >     li    a1, 1
  >     li    a7, 16            # abort(0, 1)
  >     ecall
  > text:
  >     .ascii "0123456789abcdef"
  > END
  $ bspemu run program.s --format asm --memory 16777216 --report --ledger 1
  0123456789abcdefsuperstep 0: w 7 h 0 turned
  superstep 1: w 34 h 0 last
  total 41
  rank 0 stopped: fault TooMuch
  [2]
