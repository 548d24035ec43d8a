# Rank 1 gives up with a message; the other ranks come to their ends all the same.
    li    a7, 3             # pid()
    ecall
    li    t0, 1
    beq   a0, t0, give_up
    li    a7, 1             # end()
    ecall
give_up:
    li    t0, 0x706f7473    # "stop"
    sw    t0, 256(x0)
    li    a0, 256
    li    a1, 4
    li    a7, 16            # abort(256, 4)
    ecall
