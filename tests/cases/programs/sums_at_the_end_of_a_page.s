# Adds 1 two thousand times, by two instructions of floating point near the end of a page: as far from its start as SPACE says.
        li s0, 1
        .word 0xd20400d3                # fcvt.d.w f1,x8
        li s1, 1000
        j loop
        .space SPACE
loop:   addi s1, s1, -1
        .word 0x02117153                # fadd.d f2,f2,f1
        .word 0x02117153                # fadd.d f2,f2,f1
        bnez s1, loop
        .word 0xc2011553                # fcvt.w.d x10,f2,rtz
        li s0, 2000
        bne a0, s0, wrong
        li a7, 1
        ecall
wrong:  ebreak
