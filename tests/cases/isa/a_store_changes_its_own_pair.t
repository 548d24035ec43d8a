  $ cat > program.s <<'END'
  > # A store that stands behind an instruction with which it often comes together changes that instruction, itself, or both, when the loop has
  > # gone round for long. What follows goes on as it was, and the next round executes what was stored. Each loop stands in a page of its own.
  >         .entry start
  > start:  jal   s11, first
  >         mv    s2, a0                # 3,001 times 1, and 3 times 2
  >         jal   s11, itself
  >         mv    s3, a0                # 3,004 times 1
  >         mv    s4, a1                # 3 times 1
  >         jal   s11, both
  >         mv    s5, a0                # 3,001 times 1, and 3 times 2
  >         lw    s6, 4(t2)             # sh t3, 0(t1)
  >         jal   s11, byte
  >         mv    s7, a0                # 1 and 16
  >         ebreak
  >
  >         .align 12
  > first:  li    a0, 0
  >         li    t0, 3000
  >         li    t1, 0x8000            # where the store goes, and then over the addi
  >         la    t2, one
  >         li    t3, 0x00250513        # addi a0, a0, 2
  > one:    addi  a0, a0, 1
  >         sw    t3, 0(t1)
  >         addi  t0, t0, -1
  >         bne   t0, x0, one
  >         li    t0, 4
  >         mv    t4, t1
  >         mv    t1, t2
  >         bne   t4, t2, one
  >         jr    s11
  >
  >         .align 12
  > itself: li    a0, 0
  >         li    a1, 0
  >         li    t0, 3000
  >         li    t1, 0x8000            # and then over the store
  >         la    t2, two
  >         li    t3, 0x00158593        # addi a1, a1, 1
  > two:    addi  a0, a0, 1
  >         sw    t3, 4(t1)
  >         addi  t0, t0, -1
  >         bne   t0, x0, two
  >         li    t0, 4
  >         mv    t4, t1
  >         mv    t1, t2
  >         bne   t4, t2, two
  >         jr    s11
  >
  >         .align 12
  > both:   li    a0, 0
  >         li    t0, 3000
  >         li    t1, 0x8000            # and then over the upper half of the addi, and the lower one of the store
  >         la    t2, three
  >         li    t3, 0x10230025        # those of addi a0, a0, 2 and sh t3, 0(t1)
  >         addi  t1, t1, 2
  > three:  addi  a0, a0, 1
  >         sw    t3, 0(t1)
  >         addi  t0, t0, -1
  >         bne   t0, x0, three
  >         li    t0, 4
  >         mv    t4, t1
  >         addi  t1, t2, 2
  >         bne   t4, t1, three
  >         jr    s11
  >
  >         .align 12
  > byte:   li    a0, 0
  >         li    a3, 1
  >         li    a4, 16
  >         li    t0, 3000
  >         li    t1, 0x8000            # and then over a byte of the or
  >         la    t2, four
  >         li    t3, 0xE5              # or a0, a0, a4
  > four:   or    a0, a0, a3
  >         sb    t3, 2(t1)
  >         addi  t0, t0, -1
  >         bne   t0, x0, four
  >         li    t0, 4
  >         mv    t4, t1
  >         mv    t1, t2
  >         bne   t4, t2, four
  >         jr    s11
  > END
  $ printf 'step 0 1000000\nregs 0\n' | bspemu debug program.s --format asm --memory 65536
  moved 48150
  rank 0 pc 00000028 ticks 48150 state fault Break
  x0=00000000 x1=00000000 x2=00010000 x3=00000000
  x4=00000000 x5=00000004 x6=00004028 x7=00004028
  x8=00000000 x9=00000000 x10=00000011 x11=00000003
  x12=00000000 x13=00000001 x14=00000010 x15=00000000
  x16=00000000 x17=00000000 x18=00000bbf x19=00000bbc
  x20=00000003 x21=00000bbf x22=01c31023 x23=00000011
  x24=00000000 x25=00000000 x26=00000000 x27=00000024
  x28=000000e5 x29=00004028 x30=00000000 x31=00000000
