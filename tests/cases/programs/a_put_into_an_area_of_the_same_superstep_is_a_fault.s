# The area is registered in the superstep in which it is named.
    li    a0, 0x2000
    li    a1, 4
    li    a7, 5             # push_reg(0x2000, 4)
    ecall
    li    a0, 0
    li    a1, 0x1000
    li    a2, 0x2000
    li    a3, 0
    li    a4, 4
    li    a7, 7             # put(0, 0x1000, 0x2000, 0, 4)
    ecall
