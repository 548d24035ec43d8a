# Each instruction of floating point and of its registers of control once, or so. What each gives is compared with what IEEE 754 has for it:
# at the first that differs the program stops with its number in x31.
        la x8, operands
        la x9, place
        la x10, wanted
        li x6, -7
        .word 0x00043087                # fld f1,0(x8)
        .word 0x00843107                # fld f2,8(x8)
        .word 0x01042187                # flw f3,16(x8)
        .word 0x01442207                # flw f4,20(x8)
        .word 0x0220f2d3                # fadd.d f5,f1,f2
        .word 0x0054b027                # fsd f5,0(x9)
        lw x5, 0(x9)
        lw x7, 4(x9)
        jal x1, same
        .word 0x0a20f2d3                # fsub.d f5,f1,f2
        .word 0x0054b027                # fsd f5,0(x9)
        lw x5, 0(x9)
        lw x7, 4(x9)
        jal x1, same
        .word 0x1220f2d3                # fmul.d f5,f1,f2
        .word 0x0054b027                # fsd f5,0(x9)
        lw x5, 0(x9)
        lw x7, 4(x9)
        jal x1, same
        .word 0x1a20f2d3                # fdiv.d f5,f1,f2
        .word 0x0054b027                # fsd f5,0(x9)
        lw x5, 0(x9)
        lw x7, 4(x9)
        jal x1, same
        .word 0x5a00f2d3                # fsqrt.d f5,f1
        .word 0x0054b027                # fsd f5,0(x9)
        lw x5, 0(x9)
        lw x7, 4(x9)
        jal x1, same
        .word 0x5a0172d3                # fsqrt.d f5,f2
        .word 0x0054b027                # fsd f5,0(x9)
        lw x5, 0(x9)
        lw x7, 4(x9)
        jal x1, same
        .word 0x0a20f2c3                # fmadd.d f5,f1,f2,f1
        .word 0x0054b027                # fsd f5,0(x9)
        lw x5, 0(x9)
        lw x7, 4(x9)
        jal x1, same
        .word 0x0a20f2c7                # fmsub.d f5,f1,f2,f1
        .word 0x0054b027                # fsd f5,0(x9)
        lw x5, 0(x9)
        lw x7, 4(x9)
        jal x1, same
        .word 0x0a20f2cb                # fnmsub.d f5,f1,f2,f1
        .word 0x0054b027                # fsd f5,0(x9)
        lw x5, 0(x9)
        lw x7, 4(x9)
        jal x1, same
        .word 0x0a20f2cf                # fnmadd.d f5,f1,f2,f1
        .word 0x0054b027                # fsd f5,0(x9)
        lw x5, 0(x9)
        lw x7, 4(x9)
        jal x1, same
        .word 0x2a2082d3                # fmin.d f5,f1,f2
        .word 0x0054b027                # fsd f5,0(x9)
        lw x5, 0(x9)
        lw x7, 4(x9)
        jal x1, same
        .word 0x2a2092d3                # fmax.d f5,f1,f2
        .word 0x0054b027                # fsd f5,0(x9)
        lw x5, 0(x9)
        lw x7, 4(x9)
        jal x1, same
        .word 0x222082d3                # fsgnj.d f5,f1,f2
        .word 0x0054b027                # fsd f5,0(x9)
        lw x5, 0(x9)
        lw x7, 4(x9)
        jal x1, same
        .word 0x222092d3                # fsgnjn.d f5,f1,f2
        .word 0x0054b027                # fsd f5,0(x9)
        lw x5, 0(x9)
        lw x7, 4(x9)
        jal x1, same
        .word 0x222122d3                # fsgnjx.d f5,f2,f2
        .word 0x0054b027                # fsd f5,0(x9)
        lw x5, 0(x9)
        lw x7, 4(x9)
        jal x1, same
        .word 0xa210a2d3                # feq.d x5,f1,f1
        li x7, 0
        jal x1, same
        .word 0xa22092d3                # flt.d x5,f1,f2
        li x7, 0
        jal x1, same
        .word 0xa21102d3                # fle.d x5,f2,f1
        li x7, 0
        jal x1, same
        .word 0xe20112d3                # fclass.d x5,f2
        li x7, 0
        jal x1, same
        .word 0xc20082d3                # fcvt.w.d x5,f1,rne
        li x7, 0
        jal x1, same
        .word 0xc20092d3                # fcvt.w.d x5,f1,rtz
        li x7, 0
        jal x1, same
        .word 0xc20122d3                # fcvt.w.d x5,f2,rdn
        li x7, 0
        jal x1, same
        .word 0xc21122d3                # fcvt.wu.d x5,f2,rdn
        li x7, 0
        jal x1, same
        .word 0xc210c2d3                # fcvt.wu.d x5,f1,rmm
        li x7, 0
        jal x1, same
        .word 0xc200b2d3                # fcvt.w.d x5,f1,rup
        li x7, 0
        jal x1, same
        .word 0xd20302d3                # fcvt.d.w f5,x6
        .word 0x0054b027                # fsd f5,0(x9)
        lw x5, 0(x9)
        lw x7, 4(x9)
        jal x1, same
        .word 0xd21302d3                # fcvt.d.wu f5,x6
        .word 0x0054b027                # fsd f5,0(x9)
        lw x5, 0(x9)
        lw x7, 4(x9)
        jal x1, same
        .word 0x401172d3                # fcvt.s.d f5,f2
        .word 0x0054b027                # fsd f5,0(x9)
        lw x5, 0(x9)
        lw x7, 4(x9)
        jal x1, same
        .word 0x420202d3                # fcvt.d.s f5,f4
        .word 0x0054b027                # fsd f5,0(x9)
        lw x5, 0(x9)
        lw x7, 4(x9)
        jal x1, same
        .word 0x0041f2d3                # fadd.s f5,f3,f4
        .word 0x0054b027                # fsd f5,0(x9)
        lw x5, 0(x9)
        lw x7, 4(x9)
        jal x1, same
        .word 0x0841f2d3                # fsub.s f5,f3,f4
        .word 0x0054b027                # fsd f5,0(x9)
        lw x5, 0(x9)
        lw x7, 4(x9)
        jal x1, same
        .word 0x1041f2d3                # fmul.s f5,f3,f4
        .word 0x0054b027                # fsd f5,0(x9)
        lw x5, 0(x9)
        lw x7, 4(x9)
        jal x1, same
        .word 0x1841f2d3                # fdiv.s f5,f3,f4
        .word 0x0054b027                # fsd f5,0(x9)
        lw x5, 0(x9)
        lw x7, 4(x9)
        jal x1, same
        .word 0x5801f2d3                # fsqrt.s f5,f3
        .word 0x0054b027                # fsd f5,0(x9)
        lw x5, 0(x9)
        lw x7, 4(x9)
        jal x1, same
        .word 0x284182d3                # fmin.s f5,f3,f4
        .word 0x0054b027                # fsd f5,0(x9)
        lw x5, 0(x9)
        lw x7, 4(x9)
        jal x1, same
        .word 0x284192d3                # fmax.s f5,f3,f4
        .word 0x0054b027                # fsd f5,0(x9)
        lw x5, 0(x9)
        lw x7, 4(x9)
        jal x1, same
        .word 0x204182d3                # fsgnj.s f5,f3,f4
        .word 0x0054b027                # fsd f5,0(x9)
        lw x5, 0(x9)
        lw x7, 4(x9)
        jal x1, same
        .word 0xa03212d3                # flt.s x5,f4,f3
        li x7, 0
        jal x1, same
        .word 0xe00192d3                # fclass.s x5,f3
        li x7, 0
        jal x1, same
        .word 0xc00232d3                # fcvt.w.s x5,f4,rup
        li x7, 0
        jal x1, same
        .word 0xd00372d3                # fcvt.s.w f5,x6
        .word 0x0054b027                # fsd f5,0(x9)
        lw x5, 0(x9)
        lw x7, 4(x9)
        jal x1, same
        .word 0xe00202d3                # fmv.x.w x5,f4
        li x7, 0
        jal x1, same
        .word 0xf00302d3                # fmv.w.x f5,x6
        .word 0x0054b027                # fsd f5,0(x9)
        lw x5, 0(x9)
        lw x7, 4(x9)
        jal x1, same
        .word 0x0030f2d3                # fadd.s f5,f1,f3
        .word 0x0054b027                # fsd f5,0(x9)
        lw x5, 0(x9)
        lw x7, 4(x9)
        jal x1, same
        .word 0x001022f3                # csrrs x5,fflags,x0
        li x7, 0
        jal x1, same
        .word 0x001052f3                # csrrwi x5,fflags,0
        li x7, 0
        jal x1, same
        .word 0x1a00f2d3                # fdiv.d f5,f1,f0
        .word 0x0054b027                # fsd f5,0(x9)
        lw x5, 0(x9)
        lw x7, 4(x9)
        jal x1, same
        .word 0x003ff2f3                # csrrci x5,fcsr,31
        li x7, 0
        jal x1, same
        .word 0x002312f3                # csrrw x5,frm,x6
        li x7, 0
        jal x1, same
        .word 0x003022f3                # csrrs x5,fcsr,x0
        li x7, 0
        jal x1, same
        .word 0x002052f3                # csrrwi x5,frm,0
        li x7, 0
        jal x1, same
        la x10, text
        li x11, 3
        li x17, 17
        ecall
        li x17, 1
        ecall
# Compares x5 and x7 with the next that is wanted.
same:   addi x31, x31, 1
        lw x12, 0(x10)
        lw x13, 4(x10)
        addi x10, x10, 8
        bne x5, x12, bad
        bne x7, x13, bad
        jalr x0, 0(x1)
bad:    ebreak
place:  .word 0, 0
operands:
        .word 0x00000000, 0x3ff80000, 0x9999999a, 0xbfc99999, 0x3fc00000, 0xbe4ccccd
text:   .word 0x0a6b6f
wanted:
        .word 0xcccccccd, 0x3ff4cccc
        .word 0x33333333, 0x3ffb3333
        .word 0x33333334, 0xbfd33333
        .word 0x00000000, 0xc01e0000
        .word 0x1409212e, 0x3ff3988e
        .word 0x00000000, 0x7ff80000
        .word 0x33333333, 0x3ff33333
        .word 0xcccccccd, 0xbffccccc
        .word 0xcccccccd, 0x3ffccccc
        .word 0x33333333, 0xbff33333
        .word 0x9999999a, 0xbfc99999
        .word 0x00000000, 0x3ff80000
        .word 0x00000000, 0xbff80000
        .word 0x00000000, 0x3ff80000
        .word 0x9999999a, 0x3fc99999
        .word 0x00000001, 0x00000000
        .word 0x00000000, 0x00000000
        .word 0x00000001, 0x00000000
        .word 0x00000002, 0x00000000
        .word 0x00000002, 0x00000000
        .word 0x00000001, 0x00000000
        .word 0xffffffff, 0x00000000
        .word 0x00000000, 0x00000000
        .word 0x00000002, 0x00000000
        .word 0x00000002, 0x00000000
        .word 0x00000000, 0xc01c0000
        .word 0xff200000, 0x41efffff
        .word 0xbe4ccccd, 0xffffffff
        .word 0xa0000000, 0xbfc99999
        .word 0x3fa66666, 0xffffffff
        .word 0x3fd9999a, 0xffffffff
        .word 0xbe99999a, 0xffffffff
        .word 0xc0f00000, 0xffffffff
        .word 0x3f9cc471, 0xffffffff
        .word 0xbe4ccccd, 0xffffffff
        .word 0x3fc00000, 0xffffffff
        .word 0xbfc00000, 0xffffffff
        .word 0x00000001, 0x00000000
        .word 0x00000040, 0x00000000
        .word 0x00000000, 0x00000000
        .word 0xc0e00000, 0xffffffff
        .word 0xbe4ccccd, 0x00000000
        .word 0xfffffff9, 0xffffffff
        .word 0x7fc00000, 0xffffffff
        .word 0x00000011, 0x00000000
        .word 0x00000011, 0x00000000
        .word 0x00000000, 0x7ff00000
        .word 0x00000008, 0x00000000
        .word 0x00000000, 0x00000000
        .word 0x00000020, 0x00000000
        .word 0x00000001, 0x00000000
