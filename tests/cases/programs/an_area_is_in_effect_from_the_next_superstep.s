# The area is registered in the superstep before the one in which it is named.
    li    a0, 0x2000
    li    a1, 4
    li    a7, 5             # push_reg(0x2000, 4)
    ecall
    li    a7, 4             # sync()
    ecall
    li    t0, 0x1000
    li    t1, 0x64636261    # "abcd"
    sw    t1, 0(t0)
    li    a0, 0
    li    a1, 0x1000
    li    a2, 0x2000
    li    a3, 0
    li    a4, 4
    li    a7, 7             # put(0, 0x1000, 0x2000, 0, 4)
    ecall
    li    a7, 4             # sync()
    ecall
    li    a0, 0x2000
    li    a1, 4
    li    a7, 17            # write(0x2000, 4)
    ecall
    li    a7, 1             # end()
    ecall
