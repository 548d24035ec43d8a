# A loop that loads, adds, exclusive-ors, multiplies and stores: 7 instructions a word, 340 times over 512 KiB.
    li   s0, 0x10000        # the region
    li   s1, 0x80000        # its size
    li   s2, 340            # how often
pass:
    mv   t0, s0
    add  t1, s0, s1
word:
    lw   t2, 0(t0)
    add  t2, t2, t0
    xor  t3, t3, t2
    mul  t2, t2, t3
    sw   t2, 0(t0)
    addi t0, t0, 4
    bne  t0, t1, word
    addi s2, s2, -1
    bne  s2, x0, pass
    li   a7, 1              # end()
    ecall
