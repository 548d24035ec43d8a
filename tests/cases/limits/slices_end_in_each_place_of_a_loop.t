  $ cat > program.s <<'END'
  > # A loop of all that a sequence has, for 240,000 steps of each rank, and then what it computed is written. Wherever slices end, also
  > # between two instructions that come together, each rank comes to the same.
  >         li    a7, 3                 # pid()
  >         ecall
  >         mv    s1, a0
  >         li    s0, 0x8000
  >         li    s10, 10435
  > again:  addi  s1, s1, 1
  >         addi  s2, s1, 3
  >         lw    s3, 0(s0)
  >         lw    s4, 4(s0)
  >         add   s4, s4, s1
  >         sw    s4, 4(s0)
  >         sb    s1, 0(s0)
  >         addi  s5, s4, 7
  >         beq   s1, x0, again
  >         jal   ra, leaf
  >         mul   s6, s1, s5
  >         add   s6, s6, s1
  >         slli  s7, s6, 3
  >         srli  s7, s7, 5
  >         or    s7, s7, s6
  >         sb    s7, 8(s0)
  >         lbu   s8, 0(s0)
  >         bne   s1, s8, even
  >         xori  s9, s9, 1
  > even:   addi  s10, s10, -1
  >         bne   s10, x0, again
  >         li    t0, 0x9000
  >         sw    s4, 0(t0)
  >         sw    s7, 4(t0)
  >         sw    s9, 8(t0)
  >         mv    a0, t0
  >         li    a1, 12
  >         li    a7, 17                # write()
  >         ecall
  >         li    a7, 1                 # end()
  >         ecall
  > leaf:   addi  sp, sp, -16
  >         sw    ra, 12(sp)
  >         lw    ra, 12(sp)
  >         addi  sp, sp, 16
  >         ret
  > END
  $ run() { bspemu run program.s --format asm --memory 65536 --nodes 2 --report "$@"; }
  $ run > whole
  $ od -An -tx1 -N24 whole
   a6 d6 3e 03 aa bf fa 4a 01 00 00 00 69 ff 3e 03
   a5 7e 2d 55 00 00 00 00
  $ tail -c +25 whole
  superstep 0: w 261148 h 0 m 0 last
  total 261148
  ended
  $ for n in $(seq 2061 2085) 1 2 3; do run --workers 2 --slice "$n" | cmp - whole; done
