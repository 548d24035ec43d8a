  $ cat > program.s <<'END'
  > # Each rank writes its number as a digit, and in the next superstep as a letter.
  >     li    a7, 3             # pid()
  >     ecall
  >     li    s0, 0x1000
  >     addi  t0, a0, 48        # '0'
  >     addi  t1, a0, 97        # 'a'
  >     sb    t0, 0(s0)
  >     sb    t1, 1(s0)
  >     mv    a0, s0
  >     li    a1, 1
  >     li    a7, 17            # write(0x1000, 1)
  >     ecall
  >     li    a7, 4             # sync()
  >     ecall
  >     addi  a0, s0, 1
  >     li    a7, 17            # write(0x1001, 1)
  >     ecall
  >     li    a7, 1             # end()
  >     ecall
  > END
  $ bspemu run program.s --format asm --nodes 3 --report --ledger 1
  012abcsuperstep 0: w 14 h 0 turned
  superstep 1: w 5 h 0 last
  total 19
  ended
