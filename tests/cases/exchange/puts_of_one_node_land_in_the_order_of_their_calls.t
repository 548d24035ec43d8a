  $ cat > program.s <<'END'
  > # The only node puts two bytes into its own area and then two others over them, and writes the area.
  >     li    a0, 0x2000
  >     li    a1, 4
  >     li    a7, 5             # push_reg(0x2000, 4)
  >     ecall
  >     li    a7, 4             # sync()
  >     ecall
  >     li    t0, 0x1000
  >     li    t1, 0x6261        # ab
  >     sh    t1, 0(t0)
  >     li    t1, 0x6463        # cd
  >     sh    t1, 2(t0)
  >     li    a0, 0
  >     addi  a1, t0, 2
  >     li    a2, 0x2000
  >     li    a3, 0
  >     li    a4, 2
  >     li    a7, 7             # put(0, 0x1002, 0x2000, 0, 2)
  >     ecall
  >     mv    a1, t0            # put(0, 0x1000, 0x2000, 0, 2)
  >     ecall
  >     li    a7, 4             # sync()
  >     ecall
  >     li    a0, 0x2000
  >     li    a1, 2
  >     li    a7, 17            # write(0x2000, 2)
  >     ecall
  >     li    a7, 1             # end()
  >     ecall
  > END
  $ bspemu run program.s --format asm --nodes 1 --report --ledger 1
  absuperstep 0: w 7 h 0 turned
  superstep 1: w 20 h 4 turned
  superstep 2: w 7 h 0 last
  total 38
  ended
