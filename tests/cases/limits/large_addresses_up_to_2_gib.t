A word at the end of 2^31 bytes is stored and read, and none past it.

  $ cat > program.s <<'END'
  >     li    t0, 0x7ffffffc
  >     li    t1, 0x0a6b6f      # "ok\n"
  >     sw    t1, 0(t0)
  >     lui   a0, 0x80000
  >     addi  a0, a0, -4
  >     li    a1, 3
  >     li    a7, 17            # write(0x7ffffffc, 3)
  >     ecall
  >     lw    t1, 4(t0)         # past the memory
  > END
  $ bspemu run program.s --format asm --memory 2147483648 --report --ledger 1 --large
  ok
  superstep 0: w 11 h 0 last
  total 11
  rank 0 stopped: fault LoadOutside
  [2]
