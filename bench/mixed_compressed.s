# The loop of mixed.s with compressed instructions where there are such: all but the multiplication and the branch, so that words stand
# at addresses that are no multiples of four.
    li     s2, 0x10000      # the region
    li     s3, 0x80000      # its size
    li     s4, 340          # how often
pass:
    c.mv   s0, s2
    add    a0, s2, s3
word:
    c.lw   s1, 0(s0)
    c.add  s1, s0
    c.xor  a1, s1
    mul    s1, s1, a1
    c.sw   s1, 0(s0)
    c.addi s0, 4
    bne    s0, a0, word
    c.addi s4, -1
    bne    s4, x0, pass
    c.li   a7, 1            # end()
    ecall
