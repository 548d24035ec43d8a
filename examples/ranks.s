# Each rank writes its number as a digit.
    li    a7, 3             # pid(): a0 is the rank
    ecall
    addi  a0, a0, 48        # '0'
    sw    a0, 256(x0)
    li    a0, 256
    li    a1, 1
    li    a7, 17            # write(256, 1)
    ecall
    li    a7, 1             # end()
    ecall
