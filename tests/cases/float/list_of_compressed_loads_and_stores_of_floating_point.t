  $ printf '.half 0x3d7c, 0x7d7c, 0xb9c0, 0xfcc0, 0x2f62, 0x6f62, 0xbfa6, 0xef7e, 0x2108, 0xe006\n' >text.s
  $ bspemu list text.s --format asm --float
  00000000: 3d7c      fld f15,248(x10) # compressed
  00000002: 7d7c      flw f15,124(x10) # compressed
  00000004: b9c0      fsd f8,176(x11) # compressed
  00000006: fcc0      fsw f8,60(x9) # compressed
  00000008: 2f62      fld f30,24(x2) # compressed
  0000000a: 6f62      flw f30,24(x2) # compressed
  0000000c: bfa6      fsd f9,504(x2) # compressed
  0000000e: ef7e      fsw f31,156(x2) # compressed
  00000010: 2108      fld f10,0(x10) # compressed
  00000012: e006      fsw f1,0(x2) # compressed
  $ bspemu list text.s --format asm | head -1
  00000000: 3d7c      .half 0x3d7c
