# A total exchange: each node puts 4 bytes into the area of every node, its own too.
        li   a7, 2              # nprocs()
        ecall
        mv   s0, a0
        li   a7, 3              # pid()
        ecall
        slli s1, a0, 2
        li   a0, 0x2000
        li   a1, 0x1000
        li   a7, 5              # push_reg(0x2000, 4 KiB)
        ecall
        li   a7, 4              # sync()
        ecall
        li   s2, 0
next:   mv   a0, s2
        li   a1, 0x1000
        li   a2, 0x2000
        mv   a3, s1
        li   a4, 4
        li   a7, 7              # put(s2, 0x1000, 0x2000, 4 times the rank, 4)
        ecall
        addi s2, s2, 1
        blt  s2, s0, next
        li   a7, 4              # sync()
        ecall
        li   a7, 1              # end()
        ecall
