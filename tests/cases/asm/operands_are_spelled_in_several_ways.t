  $ cat > text.s <<'END'
  > # Names of registers, blanks, signs, digits, comments and labels, and what strings may hold.
  >         add x31, t6, zero
  >         xori fp,s0,-0x800
  >         srai a7,s11,31
  >         lw a0,-4(sp)
  >         lw a0,(sp)
  >         sb a0,2047(x1)
  > 	jalr x1, 4 ( x2 )
  >         auipc gp,0xFfFfF
  >         fence.i # all
  > a: b:   nop # c
  >         mv tp , ra
  >         jr t0
  >         ret
  > s1:     li a0,-2049
  >         bnez s1,s1+4294967292
  > x0: x1: .word a+4, b - 0x10, -1, x0
  >         .half 65535,-32768
  >         .ascii "a\n\"\\\0\t#" # no text
  > END
  $ bspemu asm text.s saved.elf
  $ od -An -v -tx1 saved.elf
   7f 45 4c 46 01 01 01 00 00 00 00 00 00 00 00 00
   02 00 f3 00 01 00 00 00 00 00 00 00 34 00 00 00
   00 00 00 00 00 00 00 00 34 00 20 00 01 00 00 00
   00 00 00 00 01 00 00 00 54 00 00 00 00 00 00 00
   00 00 00 00 5b 00 00 00 5b 00 00 00 07 00 00 00
   01 00 00 00 b3 8f 0f 00 13 44 04 80 93 d8 fd 41
   03 25 c1 ff 03 25 01 00 a3 8f a0 7e e7 00 41 00
   97 f1 ff ff 0f 10 00 00 13 00 00 00 13 82 00 00
   67 80 02 00 67 80 00 00 37 f5 ff ff 13 05 f5 7f
   e3 9a 04 fe 28 00 00 00 14 00 00 00 ff ff ff ff
   40 00 00 00 ff ff 00 80 61 0a 22 5c 00 09 23
