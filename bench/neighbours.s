# Each node puts its rank into the area of the next rank, and the last one into that of rank 0, in one superstep.
        li   a7, 2              # nprocs()
        ecall
        mv   s0, a0
        li   a7, 3              # pid()
        ecall
        li   t0, 0x1000
        sw   a0, 0(t0)
        addi s1, a0, 1
        bltu s1, s0, begin
        li   s1, 0
begin:  li   a0, 0x2000
        li   a1, 4
        li   a7, 5              # push_reg(0x2000, 4)
        ecall
        li   a7, 4              # sync()
        ecall
        mv   a0, s1
        li   a1, 0x1000
        li   a2, 0x2000
        li   a3, 0
        li   a4, 4
        li   a7, 7              # put(s1, 0x1000, 0x2000, 0, 4)
        ecall
        li   a7, 4              # sync()
        ecall
        li   a7, 1              # end()
        ecall
