Instructions of floating point are listed by name where the nodes have units for them, and are data where they have none.

  $ cat > sum.s <<'END'
  >     lui t0, 1
  >     fld fa0, 0(t0)
  >     fadd.d fa0, fa0, fa1
  >     fcvt.w.d a0, fa0, rtz
  >     csrrs a1, fcsr, zero
  >     .half 0x2500
  >     ecall
  > END
  $ bspemu debug sum.s --format asm --float --interactive <<'END'
  > list 0 0 7
  > list 0 4095 1
  > END
  00000000: 000012b7  lui x5,0x1
  00000004: 0002b507  fld f10,0(x5)
  00000008: 02b57553  fadd.d f10,f10,f11
  0000000c: c2051553  fcvt.w.d x10,f10,rtz
  00000010: 003025f3  csrrs x11,fcsr,x0
  00000014: 2500      fld f8,8(x10) # compressed
  00000016: 00000073  ecall
  00000fff: 0000      .half 0x0000
  $ bspemu asm sum.s sum.elf --float
  $ bspemu debug sum.elf --interactive <<'END'
  > list 0 0 7
  > END
  00000000: 000012b7  lui x5,0x1
  00000004: 0002b507  .word 0x0002b507
  00000008: 02b57553  .word 0x02b57553
  0000000c: c2051553  .word 0xc2051553
  00000010: 003025f3  .word 0x003025f3
  00000014: 2500      .half 0x2500
  00000016: 00000073  ecall
  $ printf 'list 0 4 1\n' | bspemu debug sum.elf --float --framed
  done 1
  00000004: 0002b507  fld f10,0(x5)
