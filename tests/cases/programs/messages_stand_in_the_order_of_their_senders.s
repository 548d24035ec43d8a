# Rank 0 sends `hello` and `x` to rank 1, and rank 2 sends `yz`. Rank 1 writes how many messages and bytes there are. Then it
# writes four times the length of the first message, the four bytes at 0x2000 after a move of at most two bytes to there, and
# how many messages and bytes are left. The fourth time there is no message.
    li    a7, 3             # pid()
    ecall
    mv    s0, a0
    li    s1, 1
    beq   s0, s1, exchange
    li    a0, 1
    li    a1, 0
    li    a7, 12
    bnez  s0, rank_2
    la    a2, text
    li    a3, 5
    ecall                   # send(1, 0, text, 5)
    la    a2, text + 5
    li    a3, 1
    ecall                   # send(1, 0, text + 5, 1)
    j     exchange
rank_2:
    la    a2, text + 6
    li    a3, 2
    ecall                   # send(1, 0, text + 6, 2)
exchange:
    li    a7, 4             # sync()
    ecall
    bne   s0, s1, done
    li    t0, 0x2000
    li    t1, 0x2E2E2E2E    # "...."
    sw    t1, 0(t0)
    call  write_size
    li    s2, 4
next:
    li    a0, 0x1008
    li    a1, 0x1010
    li    a7, 14            # get_tag(0x1008, 0x1010)
    ecall
    li    a1, 4
    li    a7, 17            # write(0x1008, 4)
    ecall
    li    a0, 0x2000
    li    a1, 2
    li    a7, 15            # move(0x2000, 2)
    ecall
    li    a1, 4
    li    a7, 17            # write(0x2000, 4)
    ecall
    call  write_size
    addi  s2, s2, -1
    bnez  s2, next
done:
    li    a7, 1             # end()
    ecall
write_size:
    li    a0, 0x1000
    li    a1, 0x1004
    li    a7, 13            # qsize(0x1000, 0x1004)
    ecall
    li    a1, 8
    li    a7, 17            # write(0x1000, 8)
    ecall
    ret
text:
    .ascii "helloxyz"
