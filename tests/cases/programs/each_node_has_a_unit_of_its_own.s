# Each rank has 7 more than its number in a register of floating point, from one superstep to the next.
        li a7, 3
        ecall
        addi a0, a0, 7
        .word 0xd20500d3                # fcvt.d.w f1,x10
        li a7, 4
        ecall
        .word 0xc2009653                # fcvt.w.d x12,f1,rtz
        bne a0, a2, bad
        la a0, text
        li a1, 3
        li a7, 17
        ecall
        li a7, 1
        ecall
bad:    ebreak
text:   .word 0x0a6b6f
