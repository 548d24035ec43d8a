# So many puts of 4 bytes in one superstep as the input says, a number of 4 bytes: rank 0 puts all of them into the last rank, from the
# area's begin to its end, over and over.
        li   a7, 18             # read(0x1000, 4)
        li   a0, 0x1000
        li   a1, 4
        ecall
        li   a7, 3              # pid()
        ecall
        mv   s0, a0
        li   a7, 2              # nprocs()
        ecall
        addi s1, a0, -1
        li   a0, 0x2000
        li   a1, 0x1000
        li   a7, 5              # push_reg(0x2000, 4 KiB)
        ecall
        li   a7, 4              # sync()
        ecall
        bnez s0, over
        li   t0, 0x1000
        lw   s2, 0(t0)
        li   s3, 0
        li   s4, 0xffc
        mv   a0, s1
        li   a1, 0x1000
        li   a2, 0x2000
        li   a4, 4
        li   a7, 7              # put(s1, 0x1000, 0x2000, s3, 4)
next:   beqz s2, over
        mv   a0, s1
        mv   a3, s3
        ecall
        addi s3, s3, 4
        and  s3, s3, s4
        addi s2, s2, -1
        j    next
over:   li   a7, 4              # sync()
        ecall
        li   a7, 1              # end()
        ecall
