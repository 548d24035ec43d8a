  $ cat > text.s <<'END'
  > start: beq x0,x0,next
  > li a0,-2049
  > next: ecall
  > END
  $ bspemu list text.s --format asm
  00000000: 00000663  beq x0,x0,0x0000000c
  00000004: fffff537  lui x10,0xfffff
  00000008: 7ff50513  addi x10,x10,2047
  0000000c: 00000073  ecall
