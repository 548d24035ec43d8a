In the word of an instruction a reserved mode is that of no instruction. In frm it is a fault of what asks for the mode there, exact or not.

  $ printf '.word 0x0010d153 # fadd.s f2,f1,f1, with a reserved mode\n' >reserved.s
  $ bspemu run reserved.s --format asm --float --report
  superstep 0: w 1 h 0 m 0 last
  total 1
  rank 0 stopped: fault IllegalInstruction
  [2]
  $ for word in 0x0010f153 0xc200f653 0x4200f153; do  # fadd.s f2,f1,f1; fcvt.w.d x12,f1; fcvt.d.s f2,f1
  >   printf '.word 0x0022d073 # csrrwi x0,frm,5\n.word %s\n' $word >none.s
  >   bspemu run none.s --format asm --float --report; done
  superstep 0: w 2 h 0 m 0 last
  total 2
  rank 0 stopped: fault IllegalInstruction
  superstep 0: w 2 h 0 m 0 last
  total 2
  rank 0 stopped: fault IllegalInstruction
  superstep 0: w 2 h 0 m 0 last
  total 2
  rank 0 stopped: fault IllegalInstruction
  [2]
  $ printf '.word 0x0022d073 # csrrwi x0,frm,5\n.word 0x00109153 # fadd.s f2,f1,f1,rtz\nli a7,1\necall\n' >own.s
  $ bspemu run own.s --format asm --float --report
  superstep 0: w 4 h 0 m 0 last
  total 4
  ended
