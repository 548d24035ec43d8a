# A loop of additions: 3 instructions a turn, 100,000,000 turns.
    lui  t0, 0x5F5E
    addi t0, t0, 256
loop:
    addi t0, t0, -1
    add  t1, t1, t0
    bne  t0, x0, loop
    li   a7, 1              # end()
    ecall
