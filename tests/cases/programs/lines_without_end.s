# Each rank writes a line in each superstep, and none ends.
loop:
    la    a0, text
    li    a1, 5
    li    a7, 17            # write(text, 5)
    ecall
    li    a7, 4             # sync()
    ecall
    j     loop
text:
    .ascii "line\n"
