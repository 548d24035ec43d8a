# Every rank puts a word to rank 0 in superstep 1, and rank 0 then asks for a rank that there is not: its first request counts in the
# profile, and the one that is a fault does not.
    la    a0, word
    li    a1, 4
    li    a7, 5             # push_reg(word, 4)
    ecall
    li    a7, 4             # sync()
    ecall
    li    a7, 3             # pid()
    ecall
    mv    s0, a0
    li    a0, 0             # to rank 0
    la    a1, word
    la    a2, word
    li    a3, 0
    li    a4, 4
    li    a7, 7             # put(0, word, word, 0, 4)
    ecall
    bnez  s0, done
    li    a0, 1024          # no machine has this rank
    ecall
done:
    li    a7, 4             # sync()
    ecall
word:
    .word 7
