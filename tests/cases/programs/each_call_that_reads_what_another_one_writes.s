# In each superstep from 1 on one call writes the word at 0x2000 of rank 0, and another one reads it: those of the next row of the table.
# Rank 1 puts, and rank 0 gets. Rank 0 makes the call that reads, after its other one.
    li    a7, 3             # pid()
    ecall
    mv    s0, a0
    li    a0, 0x2000
    li    a1, 4
    li    a7, 5             # push_reg(0x2000, 4)
    ecall
    la    s1, table
    j     done
next:
    addi  s1, s1, 2
    andi  t0, a7, 1
    beqz  t0, writer_gets
    addi  t0, s0, -1
    bnez  t0, read
    li    a0, 0
    li    a1, 0x1000
    li    a2, 0x2000
    li    a3, 0
    li    a4, 4
    ecall                   # rank 1: put or hpput(0, 0x1000, 0x2000, 0, 4)
    j     read
writer_gets:
    bnez  s0, read
    li    a0, 1
    li    a1, 0x2000
    li    a2, 0
    li    a3, 0x2000
    li    a4, 4
    ecall                   # rank 0: get or hpget(1, 0x2000, 0, 0x2000, 4)
read:
    bnez  s0, done
    mv    a7, s2
    addi  t0, a7, -12
    beqz  t0, send
    andi  t0, a7, 1
    beqz  t0, reader_gets
    li    a0, 2
    li    a1, 0x2000
    li    a2, 0x2000
    li    a3, 0
    li    a4, 4
    ecall                   # rank 0: put or hpput(2, 0x2000, 0x2000, 0, 4)
    j     done
reader_gets:
    li    a0, 0
    li    a1, 0x2000
    li    a2, 0
    li    a3, 0x3000
    li    a4, 4
    ecall                   # rank 0: get or hpget(0, 0x2000, 0, 0x3000, 4)
    j     done
send:
    li    a0, 2
    li    a1, 0x1000
    li    a2, 0x2000
    li    a3, 4
    ecall                   # rank 0: send(2, 0x1000, 0x2000, 4), with a tag of no bytes
done:
    li    a7, 4             # sync()
    ecall
    lbu   a7, 0(s1)
    lbu   s2, 1(s1)
    bnez  a7, next
    li    a7, 1             # end()
    ecall
# The call that writes and the call that reads, by their numbers: 7 put, 8 get, 9 hpput, 10 hpget, 12 send.
table:
    .byte 9, 7, 9, 9, 9, 8, 9, 10, 9, 12
    .byte 10, 7, 10, 9, 10, 8, 10, 10, 10, 12
    .byte 7, 9, 7, 10, 8, 9, 8, 10
    .byte 7, 7, 7, 8, 7, 12, 8, 7, 8, 8, 8, 12
    .byte 0, 0
