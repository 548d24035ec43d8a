# Many small requests: in each of 20 supersteps every node asks for 500 puts and 500 gets of 16 bytes, of all ranks in turn. No two of them
# land on one byte.
        li   a7, 3              # pid()
        ecall
        mv   s0, a0             # the rank asked
        li   a7, 2              # nprocs()
        ecall
        mv   s1, a0
        li   a0, 0x4000
        li   a1, 0x2000
        li   a7, 5              # push_reg(0x4000, 8 KiB)
        ecall
        li   s3, 8000
        li   a7, 4              # sync()
        ecall
        li   s2, 20
turn:   li   s4, 0              # the offset
pair:   addi s0, s0, 1
        remu s0, s0, s1
        mv   a0, s0
        li   a1, 0x2000
        add  a1, a1, s4
        li   a2, 0x4000
        mv   a3, s4
        li   a4, 16
        li   a7, 7              # put(s0, 0x2000 + s4, 0x4000, s4, 16)
        ecall
        mv   a0, s0
        li   a1, 0x4000
        mv   a2, s4
        li   a3, 0x6000
        add  a3, a3, s4
        li   a7, 8              # get(s0, 0x4000, s4, 0x6000 + s4, 16)
        ecall
        addi s4, s4, 16
        bne  s4, s3, pair
        addi s2, s2, -1
        beqz s2, last
        li   a7, 4              # sync()
        ecall
        j    turn
last:   li   a7, 4              # sync(), the last one
        ecall
        li   a7, 1              # end()
        ecall
