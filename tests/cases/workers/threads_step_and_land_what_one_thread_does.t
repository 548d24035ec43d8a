  $ cat > program.s <<'END'
  > # Each of three ranks gets 256 KiB of words from the next one, puts 128 KiB of its own into rank 0, half over what the rank before it puts
  > # there, and sends 64 KiB to the next one: more steps and more bytes than one thread makes alone. The words are the rank + 1. Then each
  > # writes the mean of what it got, of what was put into it, times 4, and of the message: 2, 9 and 3; 3, 0 and 1; 1, 0 and 2.
  >     li    a7, 3             # pid()
  >     ecall
  >     mv    s0, a0
  >     addi  s1, s0, 1         # the next rank
  >     li    t0, 3
  >     bne   s1, t0, fill
  >     li    s1, 0
  > fill:
  >     li    t0, 0x100000
  >     li    t1, 0x140000
  >     addi  t2, s0, 1
  > word:
  >     sw    t2, 0(t0)
  >     addi  t0, t0, 4
  >     bne   t0, t1, word
  >     li    a0, 0x100000
  >     li    a1, 0x40000
  >     li    a7, 5             # push_reg(0x100000, 0x40000)
  >     ecall
  >     li    a0, 0x180000
  >     ecall                   # push_reg(0x180000, 0x40000)
  >     li    a7, 4             # sync()
  >     ecall
  >     mv    a0, s1
  >     li    a1, 0x100000
  >     li    a2, 0
  >     li    a3, 0x200000
  >     li    a4, 0x40000
  >     li    a7, 8             # get(next, 0x100000, 0, 0x200000, 0x40000)
  >     ecall
  >     li    a0, 0
  >     li    a1, 0x100000
  >     li    a2, 0x180000
  >     slli  a3, s0, 16
  >     li    a4, 0x20000
  >     li    a7, 7             # put(0, 0x100000, 0x180000, rank * 0x10000, 0x20000)
  >     ecall
  >     mv    a0, s1
  >     li    a1, 0
  >     li    a2, 0x100000
  >     li    a3, 0x10000
  >     li    a7, 12            # send(next, 0, 0x100000, 0x10000)
  >     ecall
  >     li    a7, 4             # sync()
  >     ecall
  >     li    a0, 0x240000
  >     li    a1, 0x10000
  >     li    a7, 15            # move(0x240000, 0x10000)
  >     ecall
  >     li    t0, 0x200000
  >     li    t1, 0x240000
  >     li    s2, 16
  >     call  write
  >     li    t0, 0x180000
  >     li    t1, 0x1C0000
  >     li    s2, 14
  >     call  write
  >     li    t0, 0x240000
  >     li    t1, 0x250000
  >     li    s2, 14
  >     call  write
  >     li    a7, 1             # end()
  >     ecall
  > # Writes the sum of the words from t0 to t1, divided by 2 to the power of s2.
  > write:
  >     li    t2, 0
  > add:
  >     lw    t3, 0(t0)
  >     add   t2, t2, t3
  >     addi  t0, t0, 4
  >     bne   t0, t1, add
  >     srl   t2, t2, s2
  >     addi  t2, t2, 48        # '0'
  >     sb    t2, 0x700(x0)
  >     li    a0, 0x700
  >     li    a1, 1
  >     li    a7, 17            # write(0x700, 1)
  >     ecall
  >     ret
  > END
  $ bspemu run program.s --format asm --nodes 3 --memory 4194304 --workers 1 --slice 65536 --report
  293301102superstep 0: w 196631 h 0 m 0 turned
  superstep 1: w 30 h 589824 m 1 turned
  superstep 2: w 589877 h 0 m 0 last
  total 1376362
  ended
  $ bspemu run program.s --format asm --nodes 3 --memory 4194304 --workers 2 --slice 7 --report
  293301102superstep 0: w 196631 h 0 m 0 turned
  superstep 1: w 30 h 589824 m 1 turned
  superstep 2: w 589877 h 0 m 0 last
  total 1376362
  ended
  $ bspemu run program.s --format asm --nodes 3 --memory 4194304 --workers 3 --slice 1000 --report
  293301102superstep 0: w 196631 h 0 m 0 turned
  superstep 1: w 30 h 589824 m 1 turned
  superstep 2: w 589877 h 0 m 0 last
  total 1376362
  ended
  $ bspemu run program.s --format asm --nodes 3 --memory 4194304 --workers 64 --slice 65536 --report
  293301102superstep 0: w 196631 h 0 m 0 turned
  superstep 1: w 30 h 589824 m 1 turned
  superstep 2: w 589877 h 0 m 0 last
  total 1376362
  ended
