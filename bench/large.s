# Two nodes: in each of 20 supersteps each puts the lower 8 MiB of its memory into the upper 8 MiB of the other.
        li   a7, 3              # pid()
        ecall
        xori s0, a0, 1          # the other rank
        li   a0, 0x800000
        li   a1, 0x800000
        li   a7, 5              # push_reg(0x800000, 8 MiB)
        ecall
        li   a7, 4              # sync()
        ecall
        li   s2, 20
turn:   mv   a0, s0
        li   a1, 0
        li   a2, 0x800000
        li   a3, 0
        li   a4, 0x800000
        li   a7, 7              # put(s0, 0, 0x800000, 0, 8 MiB)
        ecall
        addi s2, s2, -1
        beqz s2, last
        li   a7, 4              # sync()
        ecall
        j    turn
last:   li   a7, 4              # sync(), the last one
        ecall
        li   a7, 1              # end()
        ecall
