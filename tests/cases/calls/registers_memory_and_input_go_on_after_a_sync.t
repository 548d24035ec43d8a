  $ printf 'wxyz' > input
  $ cat > program.s <<'END'
  > # Two bytes of the input are read before a sync, and two after it, to where a register says. All four are written.
  >     li    s0, 0x1000
  >     mv    a0, s0
  >     li    a1, 2
  >     li    a7, 18            # read(0x1000, 2)
  >     ecall
  >     li    a7, 4             # sync()
  >     ecall
  >     addi  a0, s0, 2
  >     li    a7, 18            # read(0x1002, 2)
  >     ecall
  >     mv    a0, s0
  >     li    a1, 4
  >     li    a7, 17            # write(0x1000, 4)
  >     ecall
  >     li    a7, 1             # end()
  >     ecall
  > END
  $ bspemu run program.s --format asm --input input --report --ledger 1
  wxyzsuperstep 0: w 8 h 0 turned
  superstep 1: w 9 h 0 last
  total 17
  ended
