# Ranks 0 and 1 put four bytes each into the area of rank 2, at offsets 0 and 2. Rank 2 writes the area, of eight bytes.
    li    a7, 3             # pid()
    ecall
    mv    s0, a0
    li    a0, 0x2000
    li    a1, 8
    li    a7, 5             # push_reg(0x2000, 8)
    ecall
    li    a7, 4             # sync()
    ecall
    li    s1, 2
    beq   s0, s1, exchange
    li    t0, 0x1000
    li    t1, 0x44332211    # 11 22 33 44
    beqz  s0, put
    li    t1, 0x88776655    # 55 66 77 88
put:
    sw    t1, 0(t0)
    li    a0, 2
    li    a1, 0x1000
    li    a2, 0x2000
    slli  a3, s0, 1
    li    a4, 4
    li    a7, 7             # put(2, 0x1000, 0x2000, 2 * rank, 4)
    ecall
exchange:
    li    a7, 4             # sync()
    ecall
    bne   s0, s1, done
    li    a0, 0x2000
    li    a1, 8
    li    a7, 17            # write(0x2000, 8)
    ecall
done:
    li    a7, 1             # end()
    ecall
