  $ cat > program.s <<'END'
  > # Jumps from the first place of a page and from the last, to the first and to the last, and over the edge to both sides, in a loop that goes
  > # round for long. Each way adds 10 to a register of its own.
  >         .entry start
  > start:  li    s0, 3000
  >         li    s1, 10
  > round:  jal   ra, page
  >         addi  s0, s0, -1
  >         bne   s0, x0, round
  >         ebreak
  >
  >         .align 12
  > page:   beq   x0, x0, last          # from 0x1000 to 0x1FFE
  > back:   add   a1, a1, s1
  >         bne   x0, s1, next          # to 0x2000
  > home:   add   a3, a3, s1
  >         ret
  >         .space 4052
  > mid:    add   a2, a2, s1
  >         j     home
  > near:   add   a0, a0, s1
  >         j     back
  >         .space 6
  > last:   .half 0xBFCD                # c.j near
  > next:   bne   x0, s1, mid           # from 0x2000 to 0x1FE8
  > END
  $ printf 'step 0 1000000\nregs 0\nbytes 0 0x1FFE 6\n' | bspemu debug program.s --format asm --memory 65536
  moved 42004
  rank 0 pc 00000018 ticks 42004 state fault Break
  x0=00000000 x1=00000010 x2=00010000 x3=00000000
  x4=00000000 x5=00000000 x6=00000000 x7=00000000
  x8=00000000 x9=0000000a x10=00007530 x11=00007530
  x12=00007530 x13=00007530 x14=00000000 x15=00000000
  x16=00000000 x17=00000000 x18=00000000 x19=00000000
  x20=00000000 x21=00000000 x22=00000000 x23=00000000
  x24=00000000 x25=00000000 x26=00000000 x27=00000000
  x28=00000000 x29=00000000 x30=00000000 x31=00000000
  cd bf e3 14 90 fe
