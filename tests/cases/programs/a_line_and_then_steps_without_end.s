# A line is written in superstep 0, and superstep 1 has no end.
    la    a0, text
    li    a1, 5
    li    a7, 17            # write(text, 5)
    ecall
    li    a7, 4             # sync()
    ecall
loop:
    j     loop
text:
    .ascii "line\n"
