# An exchange that is refused: a put goes past its area. Do not copy this program: it has one fault, on purpose.
#
# Each rank has a part of ten items, from item 10 r up to item 10 (r + 1). It puts the number of its first item into
# entry r of a table that rank 0 holds, and the number of the item after its last one into entry r + 1. So p parts have
# p + 1 entries, but the program registers p.
#
#   superstep 0   every rank registers the table
#   superstep 1   every rank writes a line, and makes its two puts; that of the last rank to entry p is refused
#   superstep 2   (never begun) rank 0 writes the table

    li    a7, 3             # pid()
    ecall
    mv    s0, a0            # s0: this rank
    li    a7, 2             # nprocs()
    ecall
    mv    s1, a0            # s1: the number of ranks
    la    s2, table         # s2: the table
    la    s3, item          # s3: the word that is put

# Superstep 0.
    mv    a0, s2
    addi  a1, s1, 0         # the fault: this should be addi a1, s1, 1
    slli  a1, a1, 2
    li    a7, 5             # push_reg(table, 4 bytes for each entry)
    ecall
    li    a7, 4             # sync()
    ecall

# Superstep 1. A put has its bytes from the time of the call, so one word serves for both.
    mv    a0, s0
    call  write_number
    la    a0, puts
    li    a1, 6
    li    a7, 17            # write(" puts\n")
    ecall
    li    t0, 10
    mul   t0, t0, s0
    sw    t0, 0(s3)
    li    a0, 0             # to rank 0
    mv    a1, s3            # from the word here
    mv    a2, s2            # to the table there
    slli  a3, s0, 2         # entry r
    li    a4, 4
    li    a7, 7             # put(0, item, table, 4 r, 4), which is request 0
    ecall
    addi  t0, t0, 10
    sw    t0, 0(s3)
    addi  a3, a3, 4         # entry r + 1
    ecall                   # put(0, item, table, 4 r + 4, 4), which is request 1
    li    a7, 4             # sync()
    ecall

# Superstep 2.
    bnez  s0, over
    li    s4, 0             # s4: the number of the entry
show:
    lw    a0, 0(s2)
    call  write_number
    la    a0, newline
    li    a1, 1
    li    a7, 17            # write("\n")
    ecall
    addi  s2, s2, 4
    addi  s4, s4, 1
    bgeu  s1, s4, show      # entries 0 to p
over:
    li    a7, 1             # end()
    ecall

# Writes a0 in decimal. The digits come from the last one on, so they are stored downwards.
write_number:
    la    t0, digits_end
    li    t1, 10
digit:
    remu  t2, a0, t1
    divu  a0, a0, t1
    addi  t2, t2, 48        # '0'
    addi  t0, t0, -1
    sb    t2, 0(t0)
    bnez  a0, digit
    mv    a0, t0
    la    a1, digits_end
    sub   a1, a1, t0
    li    a7, 17            # write(a0, a1)
    ecall
    ret

item:
    .word 0
table:
    .space 4100             # 1,025 entries, as many as there can be
    .space 12               # room for the digits of a number
digits_end:
puts:
    .ascii " puts\n"
newline:
    .ascii "\n"
