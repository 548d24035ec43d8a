# Each rank writes its number and that of the superstep in supersteps 0, 1 and 2. Then rank 0 ends, and each other meets a word that is no
# instruction.
    li    a7, 3             # pid()
    ecall
    la    s0, text
    addi  s1, a0, 48        # the digit of the rank
    sb    s1, 0(s0)
    li    s1, 48            # the digit of the superstep
loop:
    sb    s1, 2(s0)
    mv    a0, s0
    li    a1, 4
    li    a7, 17            # write(text, 4)
    ecall
    li    t0, 50
    beq   s1, t0, last
    li    a7, 4             # sync()
    ecall
    addi  s1, s1, 1
    j     loop
last:
    li    a7, 3             # pid()
    ecall
    bnez  a0, bad
    li    a7, 1             # end()
    ecall
bad:
    .word 0xFFFFFFFF
text:
    .ascii "r s\n"
