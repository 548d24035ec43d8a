  $ cat > program.s <<'END'
  > # Loads and stores past the memory behind others of their kind: pc and ticks are those of the one that faults.
  >         .entry start
  > start:  li    s0, 0x8000
  >         li    s1, 0xFFF8
  >         li    t0, 2000
  > warm:   addi  t0, t0, -1
  >         bnez  t0, warm
  > again:  lw    a0, 0(s0)
  >         lw    a1, 4(s1)
  >         sw    a0, 0(s0)
  >         sw    a1, 0(s1)
  >         addi  a2, a2, 1
  >         lbu   a3, 7(s1)
  >         sb    a3, 0(s1)
  >         addi  s1, s1, 1
  >         j     again
  > END
  $ for from in 0xFFF8 0xFFF9 0xFFFC 0xFFFD 0x10000 0xFFFFFFFC; do
  >     sed "s/0xFFF8/$from/" program.s > from.s
  >     printf 'go\nregs 0\n' | bspemu debug from.s --format asm --memory 65536 | sed -n '1,2p;5,6p'
  > done
  rank 0 stopped: fault LoadOutside
  rank 0 pc 00000020 ticks 4016 state fault LoadOutside
  x8=00008000 x9=0000fff9 x10=00000000 x11=00000000
  x12=00000001 x13=00000000 x14=00000000 x15=00000000
  rank 0 stopped: fault LoadOutside
  rank 0 pc 00000020 ticks 4007 state fault LoadOutside
  x8=00008000 x9=0000fff9 x10=00000000 x11=00000000
  x12=00000000 x13=00000000 x14=00000000 x15=00000000
  rank 0 stopped: fault LoadOutside
  rank 0 pc 00000020 ticks 4007 state fault LoadOutside
  x8=00008000 x9=0000fffc x10=00000000 x11=00000000
  x12=00000000 x13=00000000 x14=00000000 x15=00000000
  rank 0 stopped: fault LoadOutside
  rank 0 pc 00000020 ticks 4007 state fault LoadOutside
  x8=00008000 x9=0000fffd x10=00000000 x11=00000000
  x12=00000000 x13=00000000 x14=00000000 x15=00000000
  rank 0 stopped: fault LoadOutside
  rank 0 pc 00000020 ticks 4007 state fault LoadOutside
  x8=00008000 x9=00010000 x10=00000000 x11=00000000
  x12=00000000 x13=00000000 x14=00000000 x15=00000000
  rank 0 stopped: fault StoreOutside
  rank 0 pc 00000024 ticks 4008 state fault StoreOutside
  x8=00008000 x9=fffffffc x10=00000000 x11=00008437
  x12=00000000 x13=00000000 x14=00000000 x15=00000000
