# Rank 0 puts a word into the area of rank 1 and then clears its own: what lands is the word at the time of the call. At the end
# rank 0 writes its word, and rank 1 its area.
    li    a7, 3             # pid()
    ecall
    mv    s0, a0
    li    a0, 0x2000
    li    a1, 4
    li    a7, 5             # push_reg(0x2000, 4)
    ecall
    li    a7, 4             # sync()
    ecall
    li    s1, 0x2000
    bnez  s0, exchange
    li    s1, 0x1000
    li    t0, 0x11223344
    sw    t0, 0(s1)
    li    a0, 1
    li    a1, 0x1000
    li    a2, 0x2000
    li    a3, 0
    li    a4, 4
    li    a7, 7             # put(1, 0x1000, 0x2000, 0, 4)
    ecall
    sw    x0, 0(s1)
exchange:
    li    a7, 4             # sync()
    ecall
    mv    a0, s1
    li    a1, 4
    li    a7, 17            # write(s1, 4)
    ecall
    li    a7, 1             # end()
    ecall
