  $ cat > program.s <<'END'
  > # Each of three ranks puts 512 KiB of words, each of which is its rank + 1, into the area of the next one, so that more than a megabyte
  > # lands. At the end each rank writes the mean of its words: 3, 1 and 2.
  >     li    a7, 3             # pid()
  >     ecall
  >     mv    s0, a0
  >     li    t0, 0x200000
  >     li    t1, 0x280000
  >     addi  t2, s0, 1
  > fill:
  >     sw    t2, 0(t0)
  >     addi  t0, t0, 4
  >     bne   t0, t1, fill
  >     li    a0, 0x100000
  >     li    a1, 0x80000
  >     li    a7, 5             # push_reg(0x100000, 0x80000)
  >     ecall
  >     li    a7, 4             # sync()
  >     ecall
  >     addi  a0, s0, 1
  >     li    t0, 3
  >     bne   a0, t0, put
  >     li    a0, 0
  > put:
  >     li    a1, 0x200000
  >     li    a2, 0x100000
  >     li    a3, 0
  >     li    a4, 0x80000
  >     li    a7, 7             # put(next, 0x200000, 0x100000, 0, 0x80000)
  >     ecall
  >     li    a7, 4             # sync()
  >     ecall
  >     li    t0, 0x100000
  >     li    t1, 0x180000
  >     li    t2, 0
  > add:
  >     lw    t3, 0(t0)
  >     add   t2, t2, t3
  >     addi  t0, t0, 4
  >     bne   t0, t1, add
  >     srli  t2, t2, 17
  >     addi  t2, t2, 48        # '0'
  >     sb    t2, 0x700(x0)
  >     li    a0, 0x700
  >     li    a1, 1
  >     li    a7, 17            # write(0x700, 1)
  >     ecall
  >     li    a7, 1             # end()
  >     ecall
  > END
  $ bspemu run program.s --format asm --nodes 3 --memory 4194304 --workers 3 --report --ledger 1
  312superstep 0: w 393232 h 0 turned
  superstep 1: w 15 h 524288 turned
  superstep 2: w 524302 h 0 last
  total 1441837
  ended
