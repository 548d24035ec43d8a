# Rank 1 meets a word that is no instruction; ranks 0 and 2 write `a` and then loop until the limit.
    li    a7, 3             # pid()
    ecall
    li    t0, 1
    beq   a0, t0, bad
    la    a0, text
    li    a1, 1
    li    a7, 17            # write(text, 1)
    ecall
loop:
    j     loop
bad:
    .word 0xFFFFFFFF
text:
    .ascii "a"
