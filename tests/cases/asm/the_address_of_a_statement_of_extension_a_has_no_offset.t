The address of a statement of extension A is a register in parentheses. A number before it can only be 0, as with GNU as.

  $ printf 'lr.w.aqrl a0,0(a1)\nsc.w t0, a2, (a1)\namoadd.w a0, a1, -0(a2)\n' | bspemu list - --format asm --atomic
  00000000: 1605a52f  lr.w.aqrl x10,(x11)
  00000004: 18c5a2af  sc.w x5,x12,(x11)
  00000008: 00b6252f  amoadd.w x10,x11,(x12)
  $ printf 'nop\namoadd.w a0,a1,4(a2)\n' | bspemu list - --format asm --atomic
  bspemu: line 2: OutOfRange (stderr)
  [1]
  $ printf 'lr.w a0,-4(a1)\n' | bspemu list - --format asm --atomic
  bspemu: line 1: OutOfRange (stderr)
  [1]
  $ printf 'lr.w a0,a1\n' | bspemu list - --format asm --atomic
  bspemu: line 1: BadOperand (stderr)
  [1]
  $ printf 'sc.w a0,(a1)\n' | bspemu list - --format asm --atomic
  bspemu: line 1: BadOperand (stderr)
  [1]
  $ printf 'lr.w.rlaq a0,(a1)\n' | bspemu list - --format asm --atomic
  bspemu: line 1: UnknownMnemonic (stderr)
  [1]
