# Rank r goes round a loop 2 + r times in superstep 0, and ends in superstep 1.
    li    a7, 3             # pid()
    ecall
    addi  t0, a0, 2
loop:
    addi  t0, t0, -1
    bnez  t0, loop
    li    a7, 4             # sync()
    ecall
    li    a7, 1             # end()
    ecall
