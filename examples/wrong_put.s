# A put that lands at the wrong place. Do not copy this program: it has one fault, on purpose, which docs/manual/debugger.md finds.
#
# Rank r has the number 10 (r + 1), and puts it into entry r of a table that rank 0 holds. Rank 0 writes the table, a line for
# each entry: with 4 ranks it should be 10, 20, 30 and 40.
#
#   superstep 0   every rank registers the table
#   superstep 1   every rank puts its number
#   superstep 2   rank 0 writes the table

    li    a7, 3             # pid()
    ecall
    mv    s0, a0            # s0: this rank
    li    a7, 2             # nprocs()
    ecall
    mv    s1, a0            # s1: the number of ranks
    la    s2, table         # s2: the table
    la    s3, item          # s3: the word that is put

# Superstep 0.
    mv    a0, s2
    slli  a1, s1, 2
    li    a7, 5             # push_reg(table, 4 bytes for each rank)
    ecall
    li    a7, 4             # sync()
    ecall

# Superstep 1.
    addi  t0, s0, 1
    li    t1, 10
    mul   t0, t0, t1
    sw    t0, 0(s3)         # 10 (r + 1)
    li    a0, 0             # to rank 0
    mv    a1, s3            # from the word here
    mv    a2, s2            # to the table there
    mv    a3, s0            # the fault: an offset counts bytes, so this should be slli a3, s0, 2
    li    a4, 4
    li    a7, 7             # put(0, item, table, r, 4)
    ecall
    li    a7, 4             # sync()
    ecall

# Superstep 2.
    bnez  s0, over
    li    s4, 0             # s4: the number of the entry
show:
    lw    a0, 0(s2)
    call  write_number
    la    a0, newline
    li    a1, 1
    li    a7, 17            # write("\n")
    ecall
    addi  s2, s2, 4
    addi  s4, s4, 1
    bltu  s4, s1, show
over:
    li    a7, 1             # end()
    ecall

# Writes a0 in decimal. The digits come from the last one on, so they are stored downwards.
write_number:
    la    t0, digits_end
    li    t1, 10
digit:
    remu  t2, a0, t1
    divu  a0, a0, t1
    addi  t2, t2, 48        # '0'
    addi  t0, t0, -1
    sb    t2, 0(t0)
    bnez  a0, digit
    mv    a0, t0
    la    a1, digits_end
    sub   a1, a1, t0
    li    a7, 17            # write(a0, a1)
    ecall
    ret

    .align 4
item:
    .word 0
    .align 4
table:
    .space 4096             # 1,024 entries, as many as there can be
    .space 12               # room for the digits of a number
digits_end:
newline:
    .ascii "\n"
