# Parallel prefix sums by puts: rank r has the number r + 1, and finds the sum of the numbers of ranks 0 to r.
#
#   superstep 0      every rank registers a word for the sum that it is sent
#   superstep 1, ..  at the distances d = 1, 2, 4, .. below the number of ranks, one superstep each: every rank sends the
#                    sum that it has to the rank d above it, which adds it to its own
#   the last one     every rank writes its sum
#
# Before distance d a rank's sum is that of the d numbers up to its own, or of all where there are fewer. The sum that
# comes from d below is that of the d numbers before those.

    li    a7, 3             # pid()
    ecall
    mv    s0, a0            # s0: this rank
    li    a7, 2             # nprocs()
    ecall
    mv    s1, a0            # s1: the number of ranks
    la    s2, sum           # s2: the place of the sum that this rank has
    la    s3, incoming      # s3: the place of the sum that it is sent
    addi  s4, s0, 1         # s4: the sum that this rank has
    li    s5, 1             # s5: the distance

# Superstep 0.
    mv    a0, s3
    li    a1, 4
    li    a7, 5             # push_reg(incoming, 4)
    ecall
    li    a7, 4             # sync()
    ecall

# Supersteps 1, 2, ..
again:
    bgeu  s5, s1, over
    add   a0, s0, s5        # to the rank that is so far above
    bgeu  a0, s1, sent      # there is none
    sw    s4, 0(s2)
    mv    a1, s2            # from the sum here
    mv    a2, s3            # to the place there
    li    a3, 0
    li    a4, 4
    li    a7, 7             # put(a0, sum, incoming, 0, 4)
    ecall
sent:
    li    a7, 4             # sync()
    ecall
    bltu  s0, s5, added     # nothing came: there is no rank so far below
    lw    t0, 0(s3)
    add   s4, s4, t0
added:
    slli  s5, s5, 1
    j     again

# The last superstep. Output comes rank by rank, so the lines are in order.
over:
    mv    a0, s4
    call  write_number
    la    a0, newline
    li    a1, 1
    li    a7, 17            # write("\n")
    ecall
    li    a7, 1             # end()
    ecall

# Writes a0 in decimal. The digits come from the last one on, so they are stored downwards.
write_number:
    la    t0, digits_end
    li    t1, 10
digit:
    remu  t2, a0, t1
    divu  a0, a0, t1
    addi  t2, t2, 48        # '0'
    addi  t0, t0, -1
    sb    t2, 0(t0)
    bnez  a0, digit
    mv    a0, t0
    la    a1, digits_end
    sub   a1, a1, t0
    li    a7, 17            # write(a0, a1)
    ecall
    ret

sum:
    .word 0
incoming:
    .word 0
    .space 12               # room for the digits of a number
digits_end:
newline:
    .ascii "\n"
