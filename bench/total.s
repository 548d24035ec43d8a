# Total exchanges: each node puts 64 KiB into the area of every other one, 10 times.
        li   a7, 2              # nprocs()
        ecall
        mv   s0, a0
        li   a7, 3              # pid()
        ecall
        mv   s1, a0
        li   a0, 0x400000
        li   a1, 0x400000
        li   a7, 5              # push_reg(0x400000, 4 MiB)
        ecall
        li   a7, 4              # sync()
        ecall
        li   s2, 10
turn:   li   s3, 0
next:   beq  s3, s1, skip
        mv   a0, s3
        li   a1, 0x200000
        li   a2, 0x400000
        slli a3, s1, 16
        li   a4, 0x10000
        li   a7, 7              # put(s3, 0x200000, 0x400000, 64 KiB of its own, 64 KiB)
        ecall
skip:   addi s3, s3, 1
        blt  s3, s0, next
        li   a7, 4              # sync()
        ecall
        addi s2, s2, -1
        bnez s2, turn
        li   a7, 1              # end()
        ecall
