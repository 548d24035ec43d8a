  $ refused() { printf '%s\n' "$1" | bspemu list - --format asm --float 2>&1; }
  $ refused 'fadd.d f1,f2,x3'
  bspemu: line 1: BadOperand
  [1]
  $ refused 'fadd.d f1,f2'
  bspemu: line 1: BadOperand
  [1]
  $ refused 'fadd.d f1,f2,f32'
  bspemu: line 1: BadOperand
  [1]
  $ refused 'fadd.d f1,f2,f3,rnd'
  bspemu: line 1: BadOperand
  [1]
  $ refused 'fadd.d f1,f2,f3,rne,rne'
  bspemu: line 1: BadOperand
  [1]
  $ refused 'fadd.d f1,f2,rne'
  bspemu: line 1: BadOperand
  [1]
  $ refused 'fmin.d f1,f2,f3,rne'
  bspemu: line 1: BadOperand
  [1]
  $ refused 'feq.d f1,f2,f3'
  bspemu: line 1: BadOperand
  [1]
  $ refused 'fcvt.w.d f1,f2'
  bspemu: line 1: BadOperand
  [1]
  $ refused 'fmv.w.x x1,f2'
  bspemu: line 1: BadOperand
  [1]
  $ refused 'fmv.d f1,x2'
  bspemu: line 1: BadOperand
  [1]
  $ refused 'flw x1,0(x2)'
  bspemu: line 1: BadOperand
  [1]
  $ refused 'flw f1,0(f2)'
  bspemu: line 1: BadOperand
  [1]
  $ refused 'fld f1,5000(x2),f3'
  bspemu: line 1: BadOperand
  [1]
  $ refused 'fld f1,2048(x2)'
  bspemu: line 1: OutOfRange
  [1]
  $ refused 'fsd f1,-2049(x2)'
  bspemu: line 1: OutOfRange
  [1]
  $ refused 'csrrw x1,mstatus,x2'
  bspemu: line 1: BadOperand
  [1]
  $ refused 'csrrw x1,3,x2'
  bspemu: line 1: BadOperand
  [1]
  $ refused 'csrrwi x1,fcsr,32'
  bspemu: line 1: OutOfRange
  [1]
  $ refused 'csrrwi x1,fcsr,-1'
  bspemu: line 1: OutOfRange
  [1]
  $ refused 'fsrmi x1,fcsr,1'
  bspemu: line 1: BadOperand
  [1]
  $ refused 'frcsr'
  bspemu: line 1: BadOperand
  [1]
  $ refused 'fadd.q f1,f2,f3'
  bspemu: line 1: UnknownMnemonic
  [1]
  $ refused 'fscsri 1'
  bspemu: line 1: UnknownMnemonic
  [1]
