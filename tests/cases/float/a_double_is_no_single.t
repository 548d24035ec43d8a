The double 1 as the operand of an instruction of singles is a NaN, since its upper word is no box; that word, loaded as a single, is a number.

  $ cat > class.s <<'END'
  >     la    s0, one
  >     .word 0x00043087        # fld f1,0(x8)
  >     .word 0x00442107        # flw f2,4(x8)
  >     .word 0xe0009553        # fclass.s x10,f1
  >     .word 0xe00115d3        # fclass.s x11,f2
  >     .word 0xe2009653        # fclass.d x12,f1
  >     ebreak
  >     .align 3
  > one: .word 0, 0x3ff00000
  > END
  $ printf 'phase\nregs 0\n' | bspemu debug class.s --format asm --float | grep -o 'x1[012]=........'
  x10=00000200
  x11=00000040
  x12=00000040
