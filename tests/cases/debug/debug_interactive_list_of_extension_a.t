Instructions of extension A are listed by name where the nodes have them, beside those of floating point, and are data where they have none.

  $ cat > add.s <<'END'
  >     addi x6, x0, 64
  >     lr.w.aq x10, (x6)
  >     fadd.d f10, f10, f11
  >     amoadd.w x11, x10, (x6)
  >     ecall
  > END
  $ bspemu asm add.s add.elf --float --atomic
  $ printf 'list 0 0 5\n' | bspemu debug add.elf --atomic --interactive
  00000000: 04000313  addi x6,x0,64
  00000004: 1403252f  lr.w.aq x10,(x6)
  00000008: 02b57553  .word 0x02b57553
  0000000c: 00a325af  amoadd.w x11,x10,(x6)
  00000010: 00000073  ecall
  $ printf 'list 0 0 5\n' | bspemu debug add.s --format asm --atomic --float --interactive
  00000000: 04000313  addi x6,x0,64
  00000004: 1403252f  lr.w.aq x10,(x6)
  00000008: 02b57553  fadd.d f10,f10,f11
  0000000c: 00a325af  amoadd.w x11,x10,(x6)
  00000010: 00000073  ecall
  $ printf 'list 0 4 1\n' | bspemu debug add.elf --framed
  done 1
  00000004: 1403252f  .word 0x1403252f
