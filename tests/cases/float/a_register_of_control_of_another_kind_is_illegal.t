  $ printf '.word 0x300022f3 # csrrs x5,mstatus,x0\n' >other.s
  $ bspemu run other.s --format asm --float --report
  superstep 0: w 1 h 0 m 0 last
  total 1
  rank 0 stopped: fault IllegalInstruction
  [2]
