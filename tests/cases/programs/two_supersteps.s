# Four bytes are sent in the first superstep, and none in the second.
    li    a0, 0
    li    a1, 0
    la    a2, text
    li    a3, 4
    li    a7, 12            # send(0, 0, text, 4)
    ecall
    li    a7, 4             # sync()
    ecall
    li    a7, 1             # end()
    ecall
text:
    .ascii "four"
