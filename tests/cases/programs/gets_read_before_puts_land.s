# Rank 0 gets the word of rank 1's area, over which rank 1 puts another in the same superstep. Rank 0 writes what it got, and
# rank 1 its area. Rank 1 sends 8 bytes, 4 of them to itself.
    li    a7, 3             # pid()
    ecall
    mv    s0, a0
    li    a0, 0x2000
    li    a1, 4
    li    a7, 5             # push_reg(0x2000, 4)
    ecall
    li    t0, 0x2000
    li    t1, 0x11111111
    beqz  s0, store
    li    t2, 0x3000
    li    t1, 0x33333333
    sw    t1, 0(t2)
    li    t1, 0x22222222
store:
    sw    t1, 0(t0)
    li    a7, 4             # sync()
    ecall
    li    a0, 1
    li    a4, 4
    bnez  s0, rank_1
    li    s1, 0x1000
    li    a1, 0x2000
    li    a2, 0
    li    a3, 0x1000
    li    a7, 8             # get(1, 0x2000, 0, 0x1000, 4)
    ecall
    j     exchange
rank_1:
    li    s1, 0x2000
    li    a1, 0x3000
    li    a2, 0x2000
    li    a3, 0
    li    a7, 7             # put(1, 0x3000, 0x2000, 0, 4)
    ecall
exchange:
    li    a7, 4             # sync()
    ecall
    mv    a0, s1
    li    a1, 4
    li    a7, 17            # write(s1, 4)
    ecall
    li    a7, 1             # end()
    ecall
