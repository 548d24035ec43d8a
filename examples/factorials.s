# Rank r writes (r + 1)! in decimal, and a newline.
    li    a7, 3             # pid()
    ecall
    addi  t0, a0, 1         # the factor
    li    t1, 1             # the product
product:
    mul   t1, t1, t0
    addi  t0, t0, -1
    bnez  t0, product
    li    t2, 0x1010        # the text ends here, and grows downwards
    li    t3, 10
    sb    t3, -1(t2)        # a newline
    addi  t4, t2, -1
digit:
    remu  t5, t1, t3
    divu  t1, t1, t3
    addi  t5, t5, 48        # '0'
    addi  t4, t4, -1
    sb    t5, 0(t4)
    bnez  t1, digit
    mv    a0, t4
    sub   a1, t2, t4
    li    a7, 17            # write
    ecall
    li    a7, 1             # end()
    ecall
