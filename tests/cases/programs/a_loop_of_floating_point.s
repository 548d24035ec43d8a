# A loop of floating point and whole numbers, without end: x9 counts its turns.
        li s0, 1
        .word 0xd20400d3                # fcvt.d.w f1,x8
        la s0, place
loop:   addi s1, s1, 1
        .word 0x02117153                # fadd.d f2,f2,f1
        .word 0x00243027                # fsd f2,0(x8)
        .word 0x00043187                # fld f3,0(x8)
        .word 0xa231a553                # feq.d x10,f3,f3
        .word 0xc2019653                # fcvt.w.d x12,f3,rtz
        beq a2, s1, loop
        ebreak
        .space 4096
place:  .space 8
