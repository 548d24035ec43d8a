# Broadcast in one phase: rank 0 puts its whole array of 64 words to each other rank.
#
#   superstep 0   every rank registers its array; rank 0 fills its own
#   superstep 1   rank 0 puts the array to every other rank
#   superstep 2   every rank checks the words it has, and writes a line

    li    a7, 3             # pid()
    ecall
    mv    s0, a0            # s0: this rank
    li    a7, 2             # nprocs()
    ecall
    mv    s1, a0            # s1: the number of ranks
    la    s2, array         # s2: the array
    li    s3, 256           # s3: its bytes

# Superstep 0. An area is registered one superstep before anything is put to it, by every rank.
    mv    a0, s2
    mv    a1, s3
    li    a7, 5             # push_reg(array, 256)
    ecall
    bnez  s0, filled        # the other ranks have nothing to send
    mv    t0, s2
    add   t1, s2, s3        # the end of the array
    li    t2, 1000          # word i is 1000 + i
fill:
    sw    t2, 0(t0)
    addi  t0, t0, 4
    addi  t2, t2, 1
    bne   t0, t1, fill
filled:
    li    a7, 4             # sync()
    ecall

# Superstep 1. A call changes no register but for the a0 of an answer, so all but the rank is set once.
    bnez  s0, sent
    li    a0, 1             # to rank 1, 2, ..
    mv    a1, s2            # from the array here
    mv    a2, s2            # to the array there
    li    a3, 0             # from its first byte on
    mv    a4, s3            # 256 bytes
    li    a7, 7             # put(a0, a1, a2, a3, a4)
send:
    bgeu  a0, s1, sent
    ecall
    addi  a0, a0, 1
    j     send
sent:
    li    a7, 4             # sync(): what was put is there afterwards
    ecall

# Superstep 2.
    mv    t0, s2
    add   t1, s2, s3
    li    t2, 1000
    la    s4, wrong         # s4: what the line says, 7 bytes
check:
    lw    t3, 0(t0)
    bne   t3, t2, checked
    addi  t0, t0, 4
    addi  t2, t2, 1
    bne   t0, t1, check
    la    s4, right
checked:
    mv    a0, s0
    call  write_number
    mv    a0, s4
    li    a1, 7
    li    a7, 17            # write(a0, 7)
    ecall
    li    a7, 1             # end()
    ecall

# Writes a0 in decimal. The digits come from the last one on, so they are stored downwards.
write_number:
    la    t0, digits_end
    li    t1, 10
digit:
    remu  t2, a0, t1
    divu  a0, a0, t1
    addi  t2, t2, 48        # '0'
    addi  t0, t0, -1
    sb    t2, 0(t0)
    bnez  a0, digit
    mv    a0, t0
    la    a1, digits_end
    sub   a1, a1, t0
    li    a7, 17            # write(a0, a1)
    ecall
    ret

array:
    .space 256
    .space 12               # room for the digits of a number
digits_end:
right:
    .ascii " right\n"
wrong:
    .ascii " wrong\n"
