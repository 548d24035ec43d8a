# Each rank reads its clock three times, and writes what it read: at its start, in the superstep after that, in which rank 1 makes two
# instructions more before it, and after a superstep in which each rank puts 8 bytes to the next one and 8 to itself.
        li   a7, 19
        ecall
        li   t0, 0x800
        sw   a0, 0(t0)
        sw   a1, 4(t0)
        li   a7, 3
        ecall
        mv   s0, a0
        li   a7, 2
        ecall
        addi s1, s0, 1
        remu s1, s1, a0
        li   a0, 0x900
        li   a1, 16
        li   a7, 5
        ecall
        li   a7, 4
        ecall
        beq  s0, x0, read
        nop
        nop
read:   li   a7, 19
        ecall
        sw   a0, 8(t0)
        sw   a1, 12(t0)
        mv   a0, s1
        li   a1, 0xa00
        li   a2, 0x900
        li   a3, 0
        li   a4, 8
        li   a7, 7
        ecall
        mv   a0, s0
        li   a3, 8
        ecall
        li   a7, 4
        ecall
        li   a7, 19
        ecall
        sw   a0, 16(t0)
        sw   a1, 20(t0)
        li   a0, 0x800
        li   a1, 24
        li   a7, 17
        ecall
        li   a7, 1
        ecall
