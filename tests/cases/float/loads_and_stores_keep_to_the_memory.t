  $ printf 'li s0,0xff8\n.word 0x00043087 # fld f1,0(s0)\n.word 0x00143027 # fsd f1,0(s0)\nli a7,1\necall\n' >last.s
  $ bspemu run last.s --format asm --float --memory 4096 --report
  superstep 0: w 6 h 0 m 0 last
  total 6
  ended
  $ printf 'li s0,0xff9\n.word 0x00043087 # fld f1,0(s0)\n' >load.s
  $ bspemu run load.s --format asm --float --memory 4096 --report
  superstep 0: w 3 h 0 m 0 last
  total 3
  rank 0 stopped: fault LoadOutside
  [2]
  $ printf 'li s0,0xff9\n.word 0x00143027 # fsd f1,0(s0)\n' >store.s
  $ bspemu run store.s --format asm --float --memory 4096 --report
  superstep 0: w 3 h 0 m 0 last
  total 3
  rank 0 stopped: fault StoreOutside
  [2]
  $ printf 'li s0,0xffd\n.word 0x00042087 # flw f1,0(s0)\n' >single.s
  $ bspemu run single.s --format asm --float --memory 4096 --report
  superstep 0: w 3 h 0 m 0 last
  total 3
  rank 0 stopped: fault LoadOutside
  [2]
