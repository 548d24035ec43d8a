  $ cat > program.s <<'END'
  > # In a loop that has gone round for long, one address is made a bad one. The loads and stores stand first and second of two that often come
  > # together, as they are and compressed; each faults at its own address, with what stands before it made and counted, and no more.
  >         .entry start
  > start:  li    s0, 0x8000
  >         li    s1, 0x8000
  >         li    s2, 2000
  > again:  addi  s2, s2, -1
  >         bne   s2, x0, good
  >         li    BAD, 0x20000
  > good:   lw    a0, 0(s0)
  >         addi  a0, a0, 1
  >         addi  a1, a1, 2
  >         sw    a0, 4(s1)
  >         lw    a2, 4(s0)
  >         lw    a3, 8(s1)
  >         addi  a3, a3, 1
  >         add   a4, a3, a2
  >         sb    a4, 12(s0)
  >         addi  a5, a4, 1
  >         sw    a5, 16(s0)
  >         sw    a4, 20(s1)
  >         addi  a4, a4, 3
  >         lbu   a6, 12(s1)
  >         .half 0x4018                # c.lw a4, 0(s0)
  >         .half 0x40DC                # c.lw a5, 4(s1)
  >         .half 0x0785                # c.addi a5, 1
  >         .half 0xC41C                # c.sw a5, 8(s0)
  >         .half 0xC498                # c.sw a4, 8(s1)
  >         .half 0x0705                # c.addi a4, 1
  >         j     again
  > END
  $ for bad in s0 s1; do
  >     for nth in 1 2 3 4 5 6; do
  >         # What stands before the n-th and has its address gets another register, whose address stays good, or does nothing.
  >         sed "s/BAD/$bad/; s/start:  li    s0/start:  li    gp, 0x8000\n        li    s0/" program.s | awk -v n="$nth" -v at="($bad)" '
  >             index($0, at) && ++k < n { if (/half/) $0 = "        .half 0x0001"; else sub("\\(s[01]\\)", "(gp)") }
  >             { print }' > one.s
  >         echo "$bad $nth"
  >         printf 'step 0 100000\nregs 0\n' | bspemu debug one.s --format asm --memory 65536 | sed -n '2p;5,7p'
  >     done
  > done
  s0 1
  rank 0 pc 0000002c ticks 45989 state fault LoadOutside
  x8=00020000 x9=00008000 x10=00000001 x11=00000f9e
  x12=00000001 x13=00000001 x14=00000001 x15=00000002
  x16=00000002 x17=00000000 x18=00000000 x19=00000000
  s0 2
  rank 0 pc 0000003c ticks 45993 state fault LoadOutside
  x8=00020000 x9=00008000 x10=00000001 x11=00000fa0
  x12=00000001 x13=00000001 x14=00000001 x15=00000002
  x16=00000002 x17=00000000 x18=00000000 x19=00000000
  s0 3
  rank 0 pc 0000004c ticks 45997 state fault StoreOutside
  x8=00020000 x9=00008000 x10=00000001 x11=00000fa0
  x12=00000001 x13=00000001 x14=00000002 x15=00000002
  x16=00000002 x17=00000000 x18=00000000 x19=00000000
  s0 4
  rank 0 pc 00000054 ticks 45999 state fault StoreOutside
  x8=00020000 x9=00008000 x10=00000001 x11=00000fa0
  x12=00000001 x13=00000001 x14=00000002 x15=00000003
  x16=00000002 x17=00000000 x18=00000000 x19=00000000
  s0 5
  rank 0 pc 00000064 ticks 46003 state fault LoadOutside
  x8=00020000 x9=00008000 x10=00000001 x11=00000fa0
  x12=00000001 x13=00000001 x14=00000005 x15=00000003
  x16=00000002 x17=00000000 x18=00000000 x19=00000000
  s0 6
  rank 0 pc 0000006a ticks 46006 state fault StoreOutside
  x8=00020000 x9=00008000 x10=00000001 x11=00000fa0
  x12=00000001 x13=0000270c x14=00002710 x15=00000002
  x16=0000000d x17=00000000 x18=00000000 x19=00000000
  s1 1
  rank 0 pc 00000038 ticks 45992 state fault StoreOutside
  x8=00008000 x9=00020000 x10=00000001 x11=00000fa0
  x12=00000001 x13=00000001 x14=00000001 x15=00000002
  x16=00000002 x17=00000000 x18=00000000 x19=00000000
  s1 2
  rank 0 pc 00000040 ticks 45994 state fault LoadOutside
  x8=00008000 x9=00020000 x10=00000001 x11=00000fa0
  x12=00000001 x13=00000001 x14=00000001 x15=00000002
  x16=00000002 x17=00000000 x18=00000000 x19=00000000
  s1 3
  rank 0 pc 00000058 ticks 46000 state fault StoreOutside
  x8=00008000 x9=00020000 x10=00000001 x11=00000fa0
  x12=00000001 x13=00000001 x14=00000002 x15=00000003
  x16=00000002 x17=00000000 x18=00000000 x19=00000000
  s1 4
  rank 0 pc 00000060 ticks 46002 state fault LoadOutside
  x8=00008000 x9=00020000 x10=00000001 x11=00000fa0
  x12=00000001 x13=00000001 x14=00000005 x15=00000003
  x16=00000002 x17=00000000 x18=00000000 x19=00000000
  s1 5
  rank 0 pc 00000066 ticks 46004 state fault LoadOutside
  x8=00008000 x9=00020000 x10=00000001 x11=00000fa0
  x12=00000001 x13=00000001 x14=00000000 x15=00000003
  x16=00000002 x17=00000000 x18=00000000 x19=00000000
  s1 6
  rank 0 pc 0000006c ticks 46007 state fault StoreOutside
  x8=00008000 x9=00020000 x10=00000001 x11=00000fa0
  x12=00000001 x13=00000001 x14=00000000 x15=00000004
  x16=00000002 x17=00000000 x18=00000000 x19=00000000
