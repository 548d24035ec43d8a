  $ cat > text.s <<'END'
  > # The words are those of GNU as, and the statements those of `objdump -d -M no-aliases,numeric`.
  > fmv.d ft0, ft1
  > fmv.d ft1, ft2
  > fmv.d ft2, ft3
  > fmv.d ft3, ft4
  > fmv.d ft4, ft5
  > fmv.d ft5, ft6
  > fmv.d ft6, ft7
  > fmv.d ft7, fs0
  > fmv.d fs0, fs1
  > fmv.d fs1, fa0
  > fmv.d fa0, fa1
  > fmv.d fa1, fa2
  > fmv.d fa2, fa3
  > fmv.d fa3, fa4
  > fmv.d fa4, fa5
  > fmv.d fa5, fa6
  > fmv.d fa6, fa7
  > fmv.d fa7, fs2
  > fmv.d fs2, fs3
  > fmv.d fs3, fs4
  > fmv.d fs4, fs5
  > fmv.d fs5, fs6
  > fmv.d fs6, fs7
  > fmv.d fs7, fs8
  > fmv.d fs8, fs9
  > fmv.d fs9, fs10
  > fmv.d fs10, fs11
  > fmv.d fs11, ft8
  > fmv.d ft8, ft9
  > fmv.d ft9, ft10
  > fmv.d ft10, ft11
  > fmv.d ft11, ft0
  > fmv.s ft0, fa0
  > fneg.s f1, f2
  > fneg.d f1, f2
  > fabs.s f3, f4
  > fabs.d f31, f0
  > fgt.s a0, fa0, fa1
  > fgt.d a1, fa2, fa3
  > fge.s t0, fs0, fs1
  > fge.d t1, fs10, ft11
  > frcsr a0
  > frrm a1
  > frflags a4
  > fscsr a0
  > fscsr a0, a1
  > fsrm a0
  > fsrm t0, t1
  > fsflags a4
  > fsflags zero, a4
  > fsrmi 1
  > fsrmi a0, 7
  > fsflagsi 31
  > fsflagsi a0, 0
  > csrr a0, fcsr
  > csrw frm, a0
  > csrs fflags, a1
  > csrc fcsr, a2
  > csrwi frm, 3
  > csrsi fflags, 16
  > csrci fcsr, 31
  > fadd.d fa0, fa1, fa2, dyn
  > fcvt.w.d a0, fa0, rtz
  > flw fa5, (sp)
  > fsd fs0, -8(s0)
  > fmadd.s ft0, ft1, ft2, ft3, rmm
  > fcvt.d.w fa0, a0
  > fcvt.s.w fa0, a0
  > fcvt.d.s fa0, fa1
  > fcvt.d.wu ft0, t6
  > fcvt.s.d fa0, fa1
  > END
  $ bspemu list text.s --format asm --float
  00000000: 22108053  fsgnj.d f0,f1,f1
  00000004: 222100d3  fsgnj.d f1,f2,f2
  00000008: 22318153  fsgnj.d f2,f3,f3
  0000000c: 224201d3  fsgnj.d f3,f4,f4
  00000010: 22528253  fsgnj.d f4,f5,f5
  00000014: 226302d3  fsgnj.d f5,f6,f6
  00000018: 22738353  fsgnj.d f6,f7,f7
  0000001c: 228403d3  fsgnj.d f7,f8,f8
  00000020: 22948453  fsgnj.d f8,f9,f9
  00000024: 22a504d3  fsgnj.d f9,f10,f10
  00000028: 22b58553  fsgnj.d f10,f11,f11
  0000002c: 22c605d3  fsgnj.d f11,f12,f12
  00000030: 22d68653  fsgnj.d f12,f13,f13
  00000034: 22e706d3  fsgnj.d f13,f14,f14
  00000038: 22f78753  fsgnj.d f14,f15,f15
  0000003c: 230807d3  fsgnj.d f15,f16,f16
  00000040: 23188853  fsgnj.d f16,f17,f17
  00000044: 232908d3  fsgnj.d f17,f18,f18
  00000048: 23398953  fsgnj.d f18,f19,f19
  0000004c: 234a09d3  fsgnj.d f19,f20,f20
  00000050: 235a8a53  fsgnj.d f20,f21,f21
  00000054: 236b0ad3  fsgnj.d f21,f22,f22
  00000058: 237b8b53  fsgnj.d f22,f23,f23
  0000005c: 238c0bd3  fsgnj.d f23,f24,f24
  00000060: 239c8c53  fsgnj.d f24,f25,f25
  00000064: 23ad0cd3  fsgnj.d f25,f26,f26
  00000068: 23bd8d53  fsgnj.d f26,f27,f27
  0000006c: 23ce0dd3  fsgnj.d f27,f28,f28
  00000070: 23de8e53  fsgnj.d f28,f29,f29
  00000074: 23ef0ed3  fsgnj.d f29,f30,f30
  00000078: 23ff8f53  fsgnj.d f30,f31,f31
  0000007c: 22000fd3  fsgnj.d f31,f0,f0
  00000080: 20a50053  fsgnj.s f0,f10,f10
  00000084: 202110d3  fsgnjn.s f1,f2,f2
  00000088: 222110d3  fsgnjn.d f1,f2,f2
  0000008c: 204221d3  fsgnjx.s f3,f4,f4
  00000090: 22002fd3  fsgnjx.d f31,f0,f0
  00000094: a0a59553  flt.s x10,f11,f10
  00000098: a2c695d3  flt.d x11,f13,f12
  0000009c: a08482d3  fle.s x5,f9,f8
  000000a0: a3af8353  fle.d x6,f31,f26
  000000a4: 00302573  csrrs x10,fcsr,x0
  000000a8: 002025f3  csrrs x11,frm,x0
  000000ac: 00102773  csrrs x14,fflags,x0
  000000b0: 00351073  csrrw x0,fcsr,x10
  000000b4: 00359573  csrrw x10,fcsr,x11
  000000b8: 00251073  csrrw x0,frm,x10
  000000bc: 002312f3  csrrw x5,frm,x6
  000000c0: 00171073  csrrw x0,fflags,x14
  000000c4: 00171073  csrrw x0,fflags,x14
  000000c8: 0020d073  csrrwi x0,frm,1
  000000cc: 0023d573  csrrwi x10,frm,7
  000000d0: 001fd073  csrrwi x0,fflags,31
  000000d4: 00105573  csrrwi x10,fflags,0
  000000d8: 00302573  csrrs x10,fcsr,x0
  000000dc: 00251073  csrrw x0,frm,x10
  000000e0: 0015a073  csrrs x0,fflags,x11
  000000e4: 00363073  csrrc x0,fcsr,x12
  000000e8: 0021d073  csrrwi x0,frm,3
  000000ec: 00186073  csrrsi x0,fflags,16
  000000f0: 003ff073  csrrci x0,fcsr,31
  000000f4: 02c5f553  fadd.d f10,f11,f12
  000000f8: c2051553  fcvt.w.d x10,f10,rtz
  000000fc: 00012787  flw f15,0(x2)
  00000100: fe843c27  fsd f8,-8(x8)
  00000104: 1820c043  fmadd.s f0,f1,f2,f3,rmm
  00000108: d2050553  fcvt.d.w f10,x10
  0000010c: d0057553  fcvt.s.w f10,x10
  00000110: 42058553  fcvt.d.s f10,f11
  00000114: d21f8053  fcvt.d.wu f0,x31
  00000118: 4015f553  fcvt.s.d f10,f11
