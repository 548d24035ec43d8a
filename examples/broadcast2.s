# Broadcast in two phases: rank 0 deals its array of 64 words out in blocks, and then every rank puts its block to all others.
#
#   superstep 0   every rank registers its array; rank 0 fills its own
#   superstep 1   scatter: rank 0 puts to each other rank the block of that rank
#   superstep 2   all-gather: every rank puts its block to every other rank
#   superstep 3   every rank checks the words it has, and writes a line

    li    a7, 3             # pid()
    ecall
    mv    s0, a0            # s0: this rank
    li    a7, 2             # nprocs()
    ecall
    mv    s1, a0            # s1: the number of ranks
    la    s2, array         # s2: the array
    li    s3, 256           # s3: its bytes
    addi  t0, s1, 63        # s4: the bytes of a block: 64 words by the number of ranks, rounded up to whole words
    divu  t0, t0, s1
    slli  s4, t0, 2

# Superstep 0. An area is registered one superstep before anything is put to it, by every rank.
    mv    a0, s2
    mv    a1, s3
    li    a7, 5             # push_reg(array, 256)
    ecall
    bnez  s0, filled        # the other ranks have nothing to send yet
    mv    t0, s2
    add   t1, s2, s3        # the end of the array
    li    t2, 1000          # word i is 1000 + i
fill:
    sw    t2, 0(t0)
    addi  t0, t0, 4
    addi  t2, t2, 1
    bne   t0, t1, fill
filled:
    li    a7, 4             # sync()
    ecall

# Superstep 1, the scatter. Each block goes to where it lies in the array.
    bnez  s0, scattered
    li    a0, 1             # to rank 1, 2, ..
    mv    a2, s2            # to the array there
    li    a7, 7             # put(a0, a1, a2, a3, a4)
scatter:
    bgeu  a0, s1, scattered
    call  block             # a1, a3 and a4
    ecall
    addi  a0, a0, 1
    j     scatter
scattered:
    li    a7, 4             # sync()
    ecall

# Superstep 2, the all-gather.
    mv    a0, s0
    call  block             # a1, a3 and a4: the same for every put
    mv    a2, s2            # to the array there
    li    a0, 0             # to rank 0, 1, ..
    li    a7, 7             # put(a0, a1, a2, a3, a4)
gather:
    bgeu  a0, s1, gathered
    beq   a0, s0, skip      # not to this rank itself
    ecall
skip:
    addi  a0, a0, 1
    j     gather
gathered:
    li    a7, 4             # sync()
    ecall

# Superstep 3.
    mv    t0, s2
    add   t1, s2, s3
    li    t2, 1000
    la    s5, wrong         # s5: what the line says, 7 bytes
check:
    lw    t3, 0(t0)
    bne   t3, t2, checked
    addi  t0, t0, 4
    addi  t2, t2, 1
    bne   t0, t1, check
    la    s5, right
checked:
    mv    a0, s0
    call  write_number
    mv    a0, s5
    li    a1, 7
    li    a7, 17            # write(a0, 7)
    ecall
    li    a7, 1             # end()
    ecall

# The block of rank a0: its address to a1, its offset in the array to a3, and its bytes to a4. The last blocks are shorter,
# or empty, where the ranks do not divide the 64 words.
block:
    mul   a3, a0, s4
    bltu  a3, s3, begins
    mv    a3, s3
begins:
    add   a1, s2, a3
    sub   a4, s3, a3        # what is left of the array
    bltu  a4, s4, ends
    mv    a4, s4
ends:
    ret

# Writes a0 in decimal. The digits come from the last one on, so they are stored downwards.
write_number:
    la    t0, digits_end
    li    t1, 10
digit:
    remu  t2, a0, t1
    divu  a0, a0, t1
    addi  t2, t2, 48        # '0'
    addi  t0, t0, -1
    sb    t2, 0(t0)
    bnez  a0, digit
    mv    a0, t0
    la    a1, digits_end
    sub   a1, a1, t0
    li    a7, 17            # write(a0, a1)
    ecall
    ret

array:
    .space 256
    .space 12               # room for the digits of a number
digits_end:
right:
    .ascii " right\n"
wrong:
    .ascii " wrong\n"
