  $ cat > text.s <<'END'
  > # Statements of floating point as GNU objdump lists the words of GNU as (2.40, Debian packages binutils-riscv64-unknown-elf 2.40-2+4+b1),
  > # which are those of the image: `objdump -d -M no-aliases,numeric`.
  >         flw f18,8(x1)
  >         flw f0,-1372(x31)
  >         flw f1,-2048(x31)
  >         fsw f0,-4(x1)
  >         fsw f27,-4(x22)
  >         fsw f7,-4(x29)
  >         fmadd.s f21,f1,f31,f2,rdn
  >         fmadd.s f2,f0,f0,f21,rtz
  >         fmadd.s f28,f31,f2,f0,rdn
  >         fmsub.s f31,f0,f15,f31,rtz
  >         fmsub.s f4,f31,f2,f31,rup
  >         fmsub.s f0,f2,f31,f6
  >         fnmsub.s f1,f24,f2,f16,rup
  >         fnmsub.s f4,f1,f23,f1,rne
  >         fnmsub.s f0,f2,f30,f23,rtz
  >         fnmadd.s f1,f0,f31,f29
  >         fnmadd.s f1,f31,f0,f0,rup
  >         fnmadd.s f1,f31,f2,f1,rne
  >         fadd.s f22,f20,f2,rup
  >         fadd.s f1,f2,f1,rup
  >         fadd.s f26,f2,f2,rtz
  >         fsub.s f1,f1,f0,rdn
  >         fsub.s f0,f31,f31,rmm
  >         fsub.s f0,f2,f28,rdn
  >         fmul.s f2,f28,f1
  >         fmul.s f2,f31,f2,rtz
  >         fmul.s f31,f14,f23,rmm
  >         fdiv.s f2,f1,f1,rtz
  >         fdiv.s f31,f0,f2,rtz
  >         fdiv.s f3,f31,f0
  >         fsqrt.s f0,f31
  >         fsqrt.s f31,f22,rtz
  >         fsqrt.s f31,f2,rmm
  >         fsgnj.s f1,f0,f27
  >         fsgnj.s f14,f2,f14
  >         fsgnj.s f11,f0,f0
  >         fsgnjn.s f31,f22,f8
  >         fsgnjn.s f0,f0,f31
  >         fsgnjn.s f5,f2,f1
  >         fsgnjx.s f1,f2,f13
  >         fsgnjx.s f17,f0,f4
  >         fsgnjx.s f30,f2,f10
  >         fmin.s f1,f1,f1
  >         fmin.s f1,f5,f0
  >         fmin.s f6,f14,f27
  >         fmax.s f1,f15,f1
  >         fmax.s f0,f0,f1
  >         fmax.s f2,f10,f13
  >         feq.s x30,f31,f31
  >         feq.s x1,f28,f2
  >         feq.s x2,f0,f10
  >         flt.s x25,f15,f1
  >         flt.s x2,f11,f2
  >         flt.s x31,f31,f16
  >         fle.s x31,f1,f0
  >         fle.s x1,f1,f30
  >         fle.s x31,f27,f1
  >         fclass.s x19,f31
  >         fclass.s x4,f2
  >         fclass.s x2,f0
  >         fcvt.w.s x0,f2,rup
  >         fcvt.w.s x3,f15
  >         fcvt.w.s x1,f3,rne
  >         fcvt.wu.s x0,f3,rne
  >         fcvt.wu.s x0,f0,rtz
  >         fcvt.wu.s x2,f0
  >         fcvt.s.w f2,x31
  >         fcvt.s.w f4,x1,rdn
  >         fcvt.s.w f31,x1,rdn
  >         fcvt.s.wu f1,x2,rdn
  >         fcvt.s.wu f1,x0,rne
  >         fcvt.s.wu f31,x2,rup
  >         fcvt.s.d f31,f15,rne
  >         fcvt.s.d f0,f2,rup
  >         fcvt.s.d f6,f2,rdn
  >         fld f26,8(x2)
  >         fld f2,-4(x0)
  >         fld f31,-1814(x0)
  >         fsd f2,0(x31)
  >         fsd f0,8(x31)
  >         fsd f2,-1104(x8)
  >         fmadd.d f2,f1,f31,f22
  >         fmadd.d f21,f31,f6,f31,rmm
  >         fmadd.d f0,f2,f14,f31,rdn
  >         fmsub.d f20,f2,f1,f15,rup
  >         fmsub.d f10,f0,f0,f26,rtz
  >         fmsub.d f0,f1,f3,f31,rne
  >         fnmsub.d f31,f15,f1,f2,rdn
  >         fnmsub.d f27,f2,f2,f31,rne
  >         fnmsub.d f9,f21,f0,f1,rne
  >         fnmadd.d f8,f2,f1,f31,rne
  >         fnmadd.d f31,f0,f31,f0,rne
  >         fnmadd.d f17,f2,f1,f13,rmm
  >         fadd.d f0,f31,f16,rne
  >         fadd.d f0,f31,f2,rmm
  >         fadd.d f2,f1,f0,rmm
  >         fsub.d f0,f8,f14,rdn
  >         fsub.d f0,f12,f2,rdn
  >         fsub.d f1,f31,f1,rtz
  >         fmul.d f1,f2,f22,rdn
  >         fmul.d f0,f2,f12,rmm
  >         fmul.d f1,f31,f1,rdn
  >         fdiv.d f1,f31,f31
  >         fdiv.d f1,f0,f0,rup
  >         fdiv.d f31,f1,f1,rne
  >         fsqrt.d f2,f28
  >         fsqrt.d f2,f0,rtz
  >         fsqrt.d f31,f1,rtz
  >         fsgnj.d f1,f2,f31
  >         fsgnj.d f1,f1,f31
  >         fsgnj.d f31,f0,f31
  >         fsgnjn.d f0,f31,f31
  >         fsgnjn.d f1,f0,f9
  >         fsgnjn.d f13,f2,f21
  >         fsgnjx.d f31,f31,f1
  >         fsgnjx.d f0,f0,f2
  >         fsgnjx.d f3,f28,f29
  >         fmin.d f31,f9,f31
  >         fmin.d f4,f8,f31
  >         fmin.d f31,f1,f2
  >         fmax.d f1,f10,f31
  >         fmax.d f31,f11,f21
  >         fmax.d f25,f1,f31
  >         feq.d x1,f17,f2
  >         feq.d x1,f2,f31
  >         feq.d x2,f1,f29
  >         flt.d x22,f31,f31
  >         flt.d x10,f15,f31
  >         flt.d x0,f2,f1
  >         fle.d x31,f27,f0
  >         fle.d x0,f31,f2
  >         fle.d x31,f0,f1
  >         fclass.d x2,f1
  >         fclass.d x1,f31
  >         fclass.d x20,f0
  >         fcvt.w.d x25,f1,rdn
  >         fcvt.w.d x27,f31,rup
  >         fcvt.w.d x31,f31,rdn
  >         fcvt.wu.d x16,f31
  >         fcvt.wu.d x2,f29,rup
  >         fcvt.wu.d x11,f2,rup
  >         fcvt.d.w f2,x1
  >         fcvt.d.w f0,x12
  >         fcvt.d.w f0,x31
  >         fcvt.d.wu f15,x1
  >         fcvt.d.wu f2,x1
  >         fcvt.d.wu f18,x11
  >         fcvt.d.s f1,f1
  >         fcvt.d.s f0,f0
  >         fcvt.d.s f31,f1
  >         fmv.x.w x0,f1
  >         fmv.x.w x2,f1
  >         fmv.x.w x16,f1
  >         fmv.w.x f2,x31
  >         fmv.w.x f2,x2
  >         fmv.w.x f1,x10
  >         csrrw x0,frm,x1
  >         csrrw x0,fflags,x1
  >         csrrw x10,frm,x14
  >         csrrs x2,fflags,x21
  >         csrrs x1,frm,x0
  >         csrrs x1,fcsr,x6
  >         csrrc x0,frm,x18
  >         csrrc x1,fcsr,x1
  >         csrrc x1,fcsr,x1
  >         csrrwi x0,fflags,0
  >         csrrwi x2,fflags,31
  >         csrrwi x0,fcsr,24
  >         csrrsi x1,frm,31
  >         csrrsi x11,fflags,31
  >         csrrsi x3,fflags,31
  >         csrrci x1,fflags,31
  >         csrrci x14,fcsr,0
  >         csrrci x25,frm,18
  > END
  $ bspemu asm text.s image --float
  $ bspemu list image --float
  00000000: 0080a907  flw f18,8(x1)
  00000004: aa4fa007  flw f0,-1372(x31)
  00000008: 800fa087  flw f1,-2048(x31)
  0000000c: fe00ae27  fsw f0,-4(x1)
  00000010: ffbb2e27  fsw f27,-4(x22)
  00000014: fe7eae27  fsw f7,-4(x29)
  00000018: 11f0aac3  fmadd.s f21,f1,f31,f2,rdn
  0000001c: a8001143  fmadd.s f2,f0,f0,f21,rtz
  00000020: 002fae43  fmadd.s f28,f31,f2,f0,rdn
  00000024: f8f01fc7  fmsub.s f31,f0,f15,f31,rtz
  00000028: f82fb247  fmsub.s f4,f31,f2,f31,rup
  0000002c: 31f17047  fmsub.s f0,f2,f31,f6
  00000030: 802c30cb  fnmsub.s f1,f24,f2,f16,rup
  00000034: 0970824b  fnmsub.s f4,f1,f23,f1,rne
  00000038: b9e1104b  fnmsub.s f0,f2,f30,f23,rtz
  0000003c: e9f070cf  fnmadd.s f1,f0,f31,f29
  00000040: 000fb0cf  fnmadd.s f1,f31,f0,f0,rup
  00000044: 082f80cf  fnmadd.s f1,f31,f2,f1,rne
  00000048: 002a3b53  fadd.s f22,f20,f2,rup
  0000004c: 001130d3  fadd.s f1,f2,f1,rup
  00000050: 00211d53  fadd.s f26,f2,f2,rtz
  00000054: 0800a0d3  fsub.s f1,f1,f0,rdn
  00000058: 09ffc053  fsub.s f0,f31,f31,rmm
  0000005c: 09c12053  fsub.s f0,f2,f28,rdn
  00000060: 101e7153  fmul.s f2,f28,f1
  00000064: 102f9153  fmul.s f2,f31,f2,rtz
  00000068: 11774fd3  fmul.s f31,f14,f23,rmm
  0000006c: 18109153  fdiv.s f2,f1,f1,rtz
  00000070: 18201fd3  fdiv.s f31,f0,f2,rtz
  00000074: 180ff1d3  fdiv.s f3,f31,f0
  00000078: 580ff053  fsqrt.s f0,f31
  0000007c: 580b1fd3  fsqrt.s f31,f22,rtz
  00000080: 58014fd3  fsqrt.s f31,f2,rmm
  00000084: 21b000d3  fsgnj.s f1,f0,f27
  00000088: 20e10753  fsgnj.s f14,f2,f14
  0000008c: 200005d3  fsgnj.s f11,f0,f0
  00000090: 208b1fd3  fsgnjn.s f31,f22,f8
  00000094: 21f01053  fsgnjn.s f0,f0,f31
  00000098: 201112d3  fsgnjn.s f5,f2,f1
  0000009c: 20d120d3  fsgnjx.s f1,f2,f13
  000000a0: 204028d3  fsgnjx.s f17,f0,f4
  000000a4: 20a12f53  fsgnjx.s f30,f2,f10
  000000a8: 281080d3  fmin.s f1,f1,f1
  000000ac: 280280d3  fmin.s f1,f5,f0
  000000b0: 29b70353  fmin.s f6,f14,f27
  000000b4: 281790d3  fmax.s f1,f15,f1
  000000b8: 28101053  fmax.s f0,f0,f1
  000000bc: 28d51153  fmax.s f2,f10,f13
  000000c0: a1ffaf53  feq.s x30,f31,f31
  000000c4: a02e20d3  feq.s x1,f28,f2
  000000c8: a0a02153  feq.s x2,f0,f10
  000000cc: a0179cd3  flt.s x25,f15,f1
  000000d0: a0259153  flt.s x2,f11,f2
  000000d4: a10f9fd3  flt.s x31,f31,f16
  000000d8: a0008fd3  fle.s x31,f1,f0
  000000dc: a1e080d3  fle.s x1,f1,f30
  000000e0: a01d8fd3  fle.s x31,f27,f1
  000000e4: e00f99d3  fclass.s x19,f31
  000000e8: e0011253  fclass.s x4,f2
  000000ec: e0001153  fclass.s x2,f0
  000000f0: c0013053  fcvt.w.s x0,f2,rup
  000000f4: c007f1d3  fcvt.w.s x3,f15
  000000f8: c00180d3  fcvt.w.s x1,f3,rne
  000000fc: c0118053  fcvt.wu.s x0,f3,rne
  00000100: c0101053  fcvt.wu.s x0,f0,rtz
  00000104: c0107153  fcvt.wu.s x2,f0
  00000108: d00ff153  fcvt.s.w f2,x31
  0000010c: d000a253  fcvt.s.w f4,x1,rdn
  00000110: d000afd3  fcvt.s.w f31,x1,rdn
  00000114: d01120d3  fcvt.s.wu f1,x2,rdn
  00000118: d01000d3  fcvt.s.wu f1,x0,rne
  0000011c: d0113fd3  fcvt.s.wu f31,x2,rup
  00000120: 40178fd3  fcvt.s.d f31,f15,rne
  00000124: 40113053  fcvt.s.d f0,f2,rup
  00000128: 40112353  fcvt.s.d f6,f2,rdn
  0000012c: 00813d07  fld f26,8(x2)
  00000130: ffc03107  fld f2,-4(x0)
  00000134: 8ea03f87  fld f31,-1814(x0)
  00000138: 002fb027  fsd f2,0(x31)
  0000013c: 000fb427  fsd f0,8(x31)
  00000140: ba243827  fsd f2,-1104(x8)
  00000144: b3f0f143  fmadd.d f2,f1,f31,f22
  00000148: fa6fcac3  fmadd.d f21,f31,f6,f31,rmm
  0000014c: fae12043  fmadd.d f0,f2,f14,f31,rdn
  00000150: 7a113a47  fmsub.d f20,f2,f1,f15,rup
  00000154: d2001547  fmsub.d f10,f0,f0,f26,rtz
  00000158: fa308047  fmsub.d f0,f1,f3,f31,rne
  0000015c: 1217afcb  fnmsub.d f31,f15,f1,f2,rdn
  00000160: fa210dcb  fnmsub.d f27,f2,f2,f31,rne
  00000164: 0a0a84cb  fnmsub.d f9,f21,f0,f1,rne
  00000168: fa11044f  fnmadd.d f8,f2,f1,f31,rne
  0000016c: 03f00fcf  fnmadd.d f31,f0,f31,f0,rne
  00000170: 6a1148cf  fnmadd.d f17,f2,f1,f13,rmm
  00000174: 030f8053  fadd.d f0,f31,f16,rne
  00000178: 022fc053  fadd.d f0,f31,f2,rmm
  0000017c: 0200c153  fadd.d f2,f1,f0,rmm
  00000180: 0ae42053  fsub.d f0,f8,f14,rdn
  00000184: 0a262053  fsub.d f0,f12,f2,rdn
  00000188: 0a1f90d3  fsub.d f1,f31,f1,rtz
  0000018c: 136120d3  fmul.d f1,f2,f22,rdn
  00000190: 12c14053  fmul.d f0,f2,f12,rmm
  00000194: 121fa0d3  fmul.d f1,f31,f1,rdn
  00000198: 1bfff0d3  fdiv.d f1,f31,f31
  0000019c: 1a0030d3  fdiv.d f1,f0,f0,rup
  000001a0: 1a108fd3  fdiv.d f31,f1,f1,rne
  000001a4: 5a0e7153  fsqrt.d f2,f28
  000001a8: 5a001153  fsqrt.d f2,f0,rtz
  000001ac: 5a009fd3  fsqrt.d f31,f1,rtz
  000001b0: 23f100d3  fsgnj.d f1,f2,f31
  000001b4: 23f080d3  fsgnj.d f1,f1,f31
  000001b8: 23f00fd3  fsgnj.d f31,f0,f31
  000001bc: 23ff9053  fsgnjn.d f0,f31,f31
  000001c0: 229010d3  fsgnjn.d f1,f0,f9
  000001c4: 235116d3  fsgnjn.d f13,f2,f21
  000001c8: 221fafd3  fsgnjx.d f31,f31,f1
  000001cc: 22202053  fsgnjx.d f0,f0,f2
  000001d0: 23de21d3  fsgnjx.d f3,f28,f29
  000001d4: 2bf48fd3  fmin.d f31,f9,f31
  000001d8: 2bf40253  fmin.d f4,f8,f31
  000001dc: 2a208fd3  fmin.d f31,f1,f2
  000001e0: 2bf510d3  fmax.d f1,f10,f31
  000001e4: 2b559fd3  fmax.d f31,f11,f21
  000001e8: 2bf09cd3  fmax.d f25,f1,f31
  000001ec: a228a0d3  feq.d x1,f17,f2
  000001f0: a3f120d3  feq.d x1,f2,f31
  000001f4: a3d0a153  feq.d x2,f1,f29
  000001f8: a3ff9b53  flt.d x22,f31,f31
  000001fc: a3f79553  flt.d x10,f15,f31
  00000200: a2111053  flt.d x0,f2,f1
  00000204: a20d8fd3  fle.d x31,f27,f0
  00000208: a22f8053  fle.d x0,f31,f2
  0000020c: a2100fd3  fle.d x31,f0,f1
  00000210: e2009153  fclass.d x2,f1
  00000214: e20f90d3  fclass.d x1,f31
  00000218: e2001a53  fclass.d x20,f0
  0000021c: c200acd3  fcvt.w.d x25,f1,rdn
  00000220: c20fbdd3  fcvt.w.d x27,f31,rup
  00000224: c20fafd3  fcvt.w.d x31,f31,rdn
  00000228: c21ff853  fcvt.wu.d x16,f31
  0000022c: c21eb153  fcvt.wu.d x2,f29,rup
  00000230: c21135d3  fcvt.wu.d x11,f2,rup
  00000234: d2008153  fcvt.d.w f2,x1
  00000238: d2060053  fcvt.d.w f0,x12
  0000023c: d20f8053  fcvt.d.w f0,x31
  00000240: d21087d3  fcvt.d.wu f15,x1
  00000244: d2108153  fcvt.d.wu f2,x1
  00000248: d2158953  fcvt.d.wu f18,x11
  0000024c: 420080d3  fcvt.d.s f1,f1
  00000250: 42000053  fcvt.d.s f0,f0
  00000254: 42008fd3  fcvt.d.s f31,f1
  00000258: e0008053  fmv.x.w x0,f1
  0000025c: e0008153  fmv.x.w x2,f1
  00000260: e0008853  fmv.x.w x16,f1
  00000264: f00f8153  fmv.w.x f2,x31
  00000268: f0010153  fmv.w.x f2,x2
  0000026c: f00500d3  fmv.w.x f1,x10
  00000270: 00209073  csrrw x0,frm,x1
  00000274: 00109073  csrrw x0,fflags,x1
  00000278: 00271573  csrrw x10,frm,x14
  0000027c: 001aa173  csrrs x2,fflags,x21
  00000280: 002020f3  csrrs x1,frm,x0
  00000284: 003320f3  csrrs x1,fcsr,x6
  00000288: 00293073  csrrc x0,frm,x18
  0000028c: 0030b0f3  csrrc x1,fcsr,x1
  00000290: 0030b0f3  csrrc x1,fcsr,x1
  00000294: 00105073  csrrwi x0,fflags,0
  00000298: 001fd173  csrrwi x2,fflags,31
  0000029c: 003c5073  csrrwi x0,fcsr,24
  000002a0: 002fe0f3  csrrsi x1,frm,31
  000002a4: 001fe5f3  csrrsi x11,fflags,31
  000002a8: 001fe1f3  csrrsi x3,fflags,31
  000002ac: 001ff0f3  csrrci x1,fflags,31
  000002b0: 00307773  csrrci x14,fcsr,0
  000002b4: 00297cf3  csrrci x25,frm,18
  $ bspemu list text.s --format asm --float >again
  $ bspemu list image --float | cmp - again
