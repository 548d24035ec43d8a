  $ cat > program.s <<'END'
  > # 32,768 puts, 16,384 gets and 16,384 messages are accepted in one superstep, and then one byte of output, which is no request.
  > # One message more is refused.
  >     li    a0, 0x400
  >     li    a1, 4
  >     li    a7, 5             # push_reg(0x400, 4)
  >     ecall
  >     li    a7, 4             # sync()
  >     ecall
  >     li    a0, 0
  >     li    a1, 0x500
  >     li    a2, 0x400
  >     li    a3, 0
  >     li    a4, 1
  >     li    a7, 7             # put(0, 0x500, 0x400, 0, 1)
  >     li    s0, 32768
  >     call  times
  >     li    a1, 0x400
  >     li    a2, 0
  >     li    a3, 0x500
  >     li    a7, 8             # get(0, 0x400, 0, 0x500, 1)
  >     li    s0, 16384
  >     call  times
  >     li    a2, 0x500
  >     li    a3, 1
  >     li    a7, 12            # send(0, 0x400, 0x500, 1)
  >     li    s0, 16384
  >     call  times
  >     la    a0, text
  >     li    a1, 1
  >     li    a7, 17            # write(text, 1)
  >     ecall
  >     li    a0, 0
  >     li    a7, 12            # send(0, 1, 0x500, 1)
  >     ecall
  > times:                      # the call in a7, s0 times
  >     ecall
  >     addi  s0, s0, -1
  >     bnez  s0, times
  >     ret
  > text:
  >     .ascii "."
  > END
  $ bspemu run program.s --format asm --report --ledger 1
  .superstep 0: w 6 h 0 turned
  superstep 1: w 196641 h 0 last
  total 196647
  rank 0 stopped: fault TooMuch
  [2]
