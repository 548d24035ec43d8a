# Writes fadd.d over an addi, and executes it from then on: x10 is 1000 for the first, and f2 is 1000 for the second.
        li s0, 1
        .word 0xd20400d3                # fcvt.d.w f1,x8
        la s2, sum
        lw s3, 0(s2)
        la s2, here
        li s1, 1000
first:  jal ra, here
        addi s1, s1, -1
        bnez s1, first
        sw s3, 0(s2)
        li s1, 1000
second: jal ra, here
        addi s1, s1, -1
        bnez s1, second
        .word 0xc20115d3                # fcvt.w.d x11,f2,rtz
        ebreak
here:   addi a0, a0, 1
        ret
sum:    .word 0x02117153                # fadd.d f2,f2,f1
