# Rank 0 puts no bytes at the end of an area of four bytes. Both ranks write the area and the four bytes after it.
    li    a7, 3             # pid()
    ecall
    mv    s0, a0
    li    a0, 0x2000
    li    a1, 4
    li    a7, 5             # push_reg(0x2000, 4)
    ecall
    li    a7, 4             # sync()
    ecall
    bnez  s0, exchange
    li    t0, 0x1000
    li    t1, -1
    sw    t1, 0(t0)
    li    a0, 1
    li    a1, 0x1000
    li    a2, 0x2000
    li    a3, 4
    li    a4, 0
    li    a7, 7             # put(1, 0x1000, 0x2000, 4, 0)
    ecall
exchange:
    li    a7, 4             # sync()
    ecall
    li    a0, 0x2000
    li    a1, 8
    li    a7, 17            # write(0x2000, 8)
    ecall
    li    a7, 1             # end()
    ecall
