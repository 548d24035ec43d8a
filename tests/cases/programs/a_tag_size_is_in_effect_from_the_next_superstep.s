# Both ranks set the tag size to 4, and write the size that was in effect. In the same superstep and in the next, rank 0 sends
# two bytes to rank 1. After each, rank 1 writes 20 bytes: the length of the payload, 12 zeros, and the place of the tag.
    li    a7, 3             # pid()
    ecall
    mv    s0, a0
    li    t0, 0x1000
    li    t1, 4
    sw    t1, 0(t0)
    mv    a0, t0
    li    a7, 11            # set_tagsize(0x1000)
    ecall
    li    a1, 4
    li    a7, 17            # write(0x1000, 4)
    ecall
    li    s1, 2             # how many messages are left to send
    bnez  s0, rank_1
    li    t1, 0x64636261    # "abcd"
    sw    t1, 0x100(t0)
again:
    li    a0, 1
    li    a1, 0x1100
    li    a2, 0x1200
    li    a3, 2
    li    a7, 12            # send(1, 0x1100, 0x1200, 2)
    ecall
    li    a7, 4             # sync()
    ecall
    addi  s1, s1, -1
    bnez  s1, again
    j     done
rank_1:
    li    t1, 0x2E2E2E2E    # "...."
    sw    t1, 0x310(t0)
next:
    li    a7, 4             # sync()
    ecall
    li    a0, 0x1300
    li    a1, 0x1310
    li    a7, 14            # get_tag(0x1300, 0x1310)
    ecall
    li    a1, 20
    li    a7, 17            # write(0x1300, 20)
    ecall
    addi  s1, s1, -1
    bnez  s1, next
done:
    li    a7, 1             # end()
    ecall
