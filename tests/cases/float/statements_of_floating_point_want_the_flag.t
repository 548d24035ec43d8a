  $ printf 'nop\nfadd.d f1,f2,f3\n' >text.s
  $ bspemu list text.s --format asm
  bspemu: line 2: UnknownMnemonic (stderr)
  [1]
  $ bspemu asm text.s image
  bspemu: line 2: UnknownMnemonic (stderr)
  [1]
  $ bspemu run text.s --format asm
  bspemu: line 2: UnknownMnemonic (stderr)
  [1]
  $ printf 'regs 0\n' | bspemu debug text.s --format asm
  bspemu: line 2: UnknownMnemonic (stderr)
  [1]
  $ bspemu asm text.s image --float
  $ bspemu list image
  00000000: 00000013  addi x0,x0,0
  00000004: 023170d3  .word 0x023170d3
  $ bspemu list image --float
  00000000: 00000013  addi x0,x0,0
  00000004: 023170d3  fadd.d f1,f2,f3
  $ printf 'li a7, 1\necall\n' >>text.s
  $ bspemu run text.s --format asm --float --report
  superstep 0: w 4 h 0 m 0 last
  total 4
  ended
  $ printf 'phase\n' | bspemu debug text.s --format asm --float | head -1
  moved 4
