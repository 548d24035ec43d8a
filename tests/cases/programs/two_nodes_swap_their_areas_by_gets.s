# Each rank gets the other's area into its own: all gets read before one lands.
    li    a7, 3             # pid()
    ecall
    mv    s0, a0
    li    a0, 0x2000
    li    a1, 4
    li    a7, 5             # push_reg(0x2000, 4)
    ecall
    li    t0, 0x2000
    li    t1, 0x11111111
    beqz  s0, store
    li    t1, 0x22222222
store:
    sw    t1, 0(t0)
    li    a7, 4             # sync()
    ecall
    xori  a0, s0, 1
    li    a1, 0x2000
    li    a2, 0
    li    a3, 0x2000
    li    a4, 4
    li    a7, 8             # get(1 - rank, 0x2000, 0, 0x2000, 4)
    ecall
    li    a7, 4             # sync()
    ecall
    li    a0, 0x2000
    li    a1, 4
    li    a7, 17            # write(0x2000, 4)
    ecall
    li    a7, 1             # end()
    ecall
