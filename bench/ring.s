# 100 supersteps, in each of which every node sends a message of 4 bytes to the next rank, and the last one to rank 0.
        li   a7, 2              # nprocs()
        ecall
        mv   s0, a0
        li   a7, 3              # pid()
        ecall
        addi s1, a0, 1
        bltu s1, s0, begin
        li   s1, 0
begin:  li   s2, 100
turn:   mv   a0, s1
        li   a1, 0
        li   a2, 0x1000
        li   a3, 4
        li   a7, 12             # send(s1, 0, 0x1000, 4)
        ecall
        li   a7, 4              # sync()
        ecall
        addi s2, s2, -1
        bnez s2, turn
        li   a7, 1              # end()
        ecall
