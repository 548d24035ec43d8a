  $ cat > program.s <<'END'
  > # Code stores into the page that it stands in, and goes on there with what it stored: over the very next instruction, in each width, and in
  > # loops that ran before. Each version writes a digit. Nothing is stored into the page from which they are written.
  >         .entry start
  > show:   la    t6, digits            # writes the digit a0
  >         add   a0, a0, t6
  >         li    a1, 1
  >         li    a7, 17
  >         ecall
  >         ret
  > digits: .ascii "0123456789"
  >         .align 2
  > start:  jal   s0, ahead
  >         jal   s0, counts
  >         jal   s0, adds
  >         jal   s0, leaves
  >         li    a7, 1                 # end()
  >         ecall
  >
  >         .align 12
  > ahead:  la    t0, next
  >         li    t1, 0x00200513        # addi a0, x0, 2
  >         sw    t1, 0(t0)             # the first store of this page
  > next:   addi  a0, x0, 1
  >         jal   ra, show              # 2
  >         la    t0, byte
  >         li    t1, 0x30              # the 3 of addi a0, x0, 3
  >         sb    t1, 2(t0)
  > byte:   addi  a0, x0, 1
  >         jal   ra, show              # 3
  >         la    t0, half
  >         li    t1, 0x40
  >         sh    t1, 2(t0)
  > half:   addi  a0, x0, 1
  >         jal   ra, show              # 4
  >         jr    s0
  >
  >         .align 12
  > counts: la    t0, count
  >         li    t2, 0x00100000        # 1 more in an immediate
  >         li    s1, 5
  > count:  addi  a0, x0, 0
  >         jal   ra, show              # 0, from the shared page, and then 1 2 3 4
  >         lw    t1, 0(t0)
  >         add   t1, t1, t2
  >         sw    t1, 0(t0)
  >         addi  s1, s1, -1
  >         bnez  s1, count
  >         jr    s0
  >
  >         .align 12
  > adds:   la    t0, add
  >         li    t1, 0x00250513        # addi a0, a0, 2
  >         li    a0, 0
  >         li    s1, 4
  > add:    addi  a0, a0, 1             # 1 the first time, 2 three times
  >         sw    t1, 0(t0)
  >         addi  s1, s1, -1
  >         bnez  s1, add
  >         jal   ra, show              # 7
  >         jr    s0
  >
  >         .align 12
  > leaves: la    t0, again
  >         li    t1, 0x00000013        # nop
  >         li    a0, 0
  > turn:   addi  a0, a0, 1
  >         addi  t2, a0, -5
  >         bnez  t2, again
  >         sw    t1, 0(t0)             # in the fifth turn, over the jump of the loop
  > again:  j     turn
  >         jal   ra, show              # 5
  >         jr    s0
  > END
  $ bspemu run program.s --format asm --report
  2340123475superstep 0: w 188 h 0 m 0 last
  total 188
  ended
