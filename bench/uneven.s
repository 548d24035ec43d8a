# A loop of additions: the nodes of ranks 0 to 7 make 16 times as many turns as the others.
        li   a7, 3              # pid()
        ecall
        lui  t0, 0xF4           # 999,424 turns of 3 instructions
        sltiu t2, a0, 8
        beqz t2, loop
        slli t0, t0, 4
loop:   addi t0, t0, -1
        add  t1, t1, t0
        bnez t0, loop
        li   a7, 1              # end()
        ecall
