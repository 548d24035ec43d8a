  $ cat > program.s <<'END'
  > # In a run that goes on for long, jumps to each half-word of a sequence whose instructions come together in pairs: to a first, to a second,
  > # and into the upper half of a code of four bytes, which is a code of two itself: c.addi a0, 1, or c.addi a1, 2.
  >         .entry start
  > start:  li    s3, 3000
  > round:  la    s1, steps
  >         li    s2, 0
  > next:   add   t0, s1, s2
  >         jalr  ra, 0(t0)
  >         addi  s2, s2, 2
  >         li    t1, 24
  >         bne   s2, t1, next
  >         addi  s3, s3, -1
  >         bne   s3, x0, round
  >         ebreak
  > steps:  .word 0x05050513            # addi a0, a0, 80
  >         .word 0x05890593            # addi a1, s2, 88
  >         .word 0x05050513            # addi a0, a0, 80
  >         lui   a2, 0x5050            # of which the upper half is c.addi a0, 1
  >         .half 0x0685                # c.addi a3, 1
  >         .half 0x0709                # c.addi a4, 2
  >         .word 0x05050513            # addi a0, a0, 80
  >         ret
  > END
  $ printf 'step 0 1000000\nregs 0\n' | bspemu debug program.s --format asm --memory 65536
  moved 384003
  rank 0 pc 00000030 ticks 384003 state fault Break
  x0=00000000 x1=0000001c x2=00010000 x3=00000000
  x4=00000000 x5=0000004a x6=00000018 x7=00000000
  x8=00000000 x9=00000034 x10=003e7060 x11=0000005e
  x12=05050000 x13=00006978 x14=0000ea60 x15=00000000
  x16=00000000 x17=00000000 x18=00000018 x19=00000000
  x20=00000000 x21=00000000 x22=00000000 x23=00000000
  x24=00000000 x25=00000000 x26=00000000 x27=00000000
  x28=00000000 x29=00000000 x30=00000000 x31=00000000
