# Each rank writes its input, in pieces of at most 256 bytes.
again:
    li    a0, 0x1000
    li    a1, 256
    li    a7, 18            # read(0x1000, 256): a0 is how many bytes came
    ecall
    beqz  a0, done
    mv    a1, a0
    li    a0, 0x1000
    li    a7, 17            # write(0x1000, a1)
    ecall
    j     again
done:
    li    a7, 1             # end()
    ecall
