# A put and then a get, both of four bytes to 0x3000. What the get finds in the area at 0x2000 lands first, and then the put.
    li    a0, 0x2000
    li    a1, 4
    li    a7, 5             # push_reg(0x2000, 4)
    ecall
    li    a0, 0x3000        # push_reg(0x3000, 4)
    ecall
    li    a7, 4             # sync()
    ecall
    li    a0, 0
    la    a1, text
    li    a2, 0x3000
    li    a3, 0
    li    a4, 4
    li    a7, 7             # put(0, text, 0x3000, 0, 4)
    ecall
    li    a1, 0x2000
    li    a2, 0
    li    a3, 0x3000
    li    a7, 8             # get(0, 0x2000, 0, 0x3000, 4)
    ecall
    li    a7, 4             # sync()
    ecall
    li    a0, 0x3000
    li    a1, 4
    li    a7, 17            # write(0x3000, 4)
    ecall
    li    a7, 1             # end()
    ecall
text:
    .ascii "over"
