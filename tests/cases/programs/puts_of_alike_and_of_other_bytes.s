# Ranks 1 and 2 put words into the word at 0x2000 of rank 0: in superstep 1 words that have their lowest byte alike, in superstep 2 one and
# the same, and in superstep 3 rank 1 alone puts two words of which all bytes differ.
    li    a7, 3             # pid()
    ecall
    mv    s0, a0
    li    a0, 0x2000
    li    a1, 4
    li    a7, 5             # push_reg(0x2000, 4)
    ecall
    li    a7, 4             # sync()
    ecall
    li    s1, 0x11223344
    addi  t0, s0, -1
    beqz  t0, one
    li    s1, 0x55667744
one:
    jal   s2, put
    li    a7, 4             # sync()
    ecall
    li    s1, 0x01020304
    jal   s2, put
    li    a7, 4             # sync()
    ecall
    addi  t0, s0, -1
    bnez  t0, last
    jal   s2, put
    li    s1, 0x05060708
    jal   s2, put
last:
    li    a7, 4             # sync()
    ecall
    li    a7, 1             # end()
    ecall
put:
    beqz  s0, done          # rank 0 puts nothing
    li    t1, 0x1000
    sw    s1, 0(t1)
    li    a0, 0
    li    a1, 0x1000
    li    a2, 0x2000
    li    a3, 0
    li    a4, 4
    li    a7, 7             # put(0, 0x1000, 0x2000, 0, 4)
    ecall
done:
    jr    s2
