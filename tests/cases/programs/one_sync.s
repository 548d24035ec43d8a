# Two ticks before the end of the superstep, and two after it.
    li    a7, 4             # sync()
    ecall
    li    a7, 1             # end()
    ecall
