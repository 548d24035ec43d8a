  $ cat > program.s <<'END'
  > # Jumps into the second half of a code of four bytes, which is a code of two itself; to each code of a sequence; and to an odd address.
  >         .entry start
  > start:  li    a0, 0
  >         la    t0, whole
  >         jalr  ra, 0(t0)             # lui a1, 0x5050
  >         jalr  ra, 2(t0)             # c.addi a0, 1, as its upper half is
  >         jalr  ra, 2(t0)
  >         la    s1, steps
  >         jalr  ra, 0(s1)
  >         jalr  ra, 4(s1)
  >         jalr  ra, 8(s1)
  >         jalr  ra, 12(s1)
  >         jalr  ra, 5(s1)             # bit 0 of a target is cleared
  >         li    t1, 0x10000001
  >         ebreak
  > whole:  .word 0x050505B7
  >         ret
  > steps:  addi  s2, s2, 1
  >         addi  s2, s2, 16
  >         lw    t2, 0(x0)
  >         bne   s2, x0, over
  >         ebreak
  > over:   ret
  > END
  $ printf 'step 0 100\nregs 0\n' | bspemu debug program.s --format asm --memory 65536
  moved 40
  rank 0 pc 0000003c ticks 40 state fault Break
  x0=00000000 x1=00000034 x2=00010000 x3=00000000
  x4=00000000 x5=00000040 x6=10000001 x7=00000513
  x8=00000000 x9=00000048 x10=00000002 x11=05050000
  x12=00000000 x13=00000000 x14=00000000 x15=00000000
  x16=00000000 x17=00000000 x18=00000031 x19=00000000
  x20=00000000 x21=00000000 x22=00000000 x23=00000000
  x24=00000000 x25=00000000 x26=00000000 x27=00000000
  x28=00000000 x29=00000000 x30=00000000 x31=00000000
