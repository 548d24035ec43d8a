# The loop of adds.s with compressed instructions: 3 instructions a turn, 100,000,000 turns.
    lui    s0, 0x5F5E
    addi   s0, s0, 256
loop:
    c.addi s0, -1
    c.add  s1, s0
    c.bnez s0, loop
    c.li   a7, 1            # end()
    ecall
