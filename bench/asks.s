# 100 supersteps, in each of which every node puts 4 bytes into the next 8 ranks' areas: so 8 requests a node.
        li   a7, 2              # nprocs()
        ecall
        mv   s0, a0
        li   a7, 3              # pid()
        ecall
        mv   s1, a0
        li   a0, 0x2000
        li   a1, 0x1000
        li   a7, 5              # push_reg(0x2000, 4 KiB)
        ecall
        li   a7, 4              # sync()
        ecall
        li   s2, 100
turn:   li   s3, 8
        mv   s4, s1
next:   addi s4, s4, 1
        bltu s4, s0, put
        li   s4, 0
put:    mv   a0, s4
        li   a1, 0x1000
        li   a2, 0x2000
        slli a3, s3, 2
        li   a4, 4
        li   a7, 7              # put(s4, 0x1000, 0x2000, 4 s3, 4)
        ecall
        addi s3, s3, -1
        bnez s3, next
        li   a7, 4              # sync()
        ecall
        addi s2, s2, -1
        bnez s2, turn
        li   a7, 1              # end()
        ecall
