# Total exchange: every rank has a row of words, one for each rank, and puts each of them to its rank. So a matrix whose
# rows the ranks hold is transposed: each rank ends with a column.
#
#   superstep 0   every rank registers the place of its column, and makes its row
#   superstep 1   every rank puts a word to each other rank
#   superstep 2   every rank writes the column that it has

    li    a7, 3             # pid()
    ecall
    mv    s0, a0            # s0: this rank
    li    a7, 2             # nprocs()
    ecall
    mv    s1, a0            # s1: the number of ranks
    la    s2, row           # s2: the row; word q is for rank q
    la    s3, column        # s3: the column; word q is of rank q
    slli  s4, s0, 2         # s4: the place of this rank's word in a column

# Superstep 0.
    mv    a0, s3
    slli  a1, s1, 2
    li    a7, 5             # push_reg(column, 4 bytes for each rank)
    ecall
    mv    t0, s2
    li    t1, 1000
    mul   t1, t1, s0        # word q is 1000 times this rank, plus q
    li    t2, 0
make:
    sw    t1, 0(t0)
    addi  t0, t0, 4
    addi  t1, t1, 1
    addi  t2, t2, 1
    bne   t2, s1, make
    li    a7, 4             # sync()
    ecall

# Superstep 1. A call changes no register but for the a0 of an answer.
    li    a0, 0             # to rank 0, 1, ..
    mv    a1, s2            # from the word for that rank
    mv    a2, s3            # to the column there
    mv    a3, s4            # at this rank's place
    li    a4, 4             # 4 bytes
    li    a7, 7             # put(a0, a1, a2, a3, a4)
send:
    bne   a0, s0, other
    lw    t0, 0(a1)         # this rank's own word needs no put
    add   t1, s3, s4
    sw    t0, 0(t1)
    j     next
other:
    ecall
next:
    addi  a0, a0, 1
    addi  a1, a1, 4
    bne   a0, s1, send
    li    a7, 4             # sync()
    ecall

# Superstep 2.
    mv    a0, s0
    call  write_number
    la    a0, colon
    li    a1, 1
    li    a7, 17            # write(":")
    ecall
    slli  s5, s1, 2
    add   s5, s5, s3        # s5: the end of the column
show:
    la    a0, space
    li    a1, 1
    li    a7, 17            # write(" ")
    ecall
    lw    a0, 0(s3)
    call  write_number
    addi  s3, s3, 4
    bne   s3, s5, show
    la    a0, newline
    li    a1, 1
    li    a7, 17            # write("\n")
    ecall
    li    a7, 1             # end()
    ecall

# Writes a0 in decimal. The digits come from the last one on, so they are stored downwards.
write_number:
    la    t0, digits_end
    li    t1, 10
digit:
    remu  t2, a0, t1
    divu  a0, a0, t1
    addi  t2, t2, 48        # '0'
    addi  t0, t0, -1
    sb    t2, 0(t0)
    bnez  a0, digit
    mv    a0, t0
    la    a1, digits_end
    sub   a1, a1, t0
    li    a7, 17            # write(a0, a1)
    ecall
    ret

row:
    .space 4096             # 1,024 words, as many as there can be ranks
column:
    .space 4096
    .space 12               # room for the digits of a number
digits_end:
colon:
    .ascii ":"
space:
    .ascii " "
newline:
    .ascii "\n"
