# fadd.d f2,f1,f1 is executed whole, and then from its middle, where the half-word is that of c.addi4spn x12,x2,256.
        li s0, 1
        .word 0xd20400d3                # fcvt.d.w f1,x8
        li s1, 1000
        la s2, sum
        addi s2, s2, 2
loop:   addi s1, s1, -1
sum:    .word 0x0210f153                # fadd.d f2,f1,f1
        addi a0, a0, 1
        bnez s1, loop
        beqz s2, end
        mv s3, s2
        li s2, 0
        li s1, 1
        jr s3
end:    .word 0xc20115d3                # fcvt.w.d x11,f2,rtz
        ebreak
