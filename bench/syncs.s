# 1,000 supersteps of 4 instructions each, in which nothing is moved.
        li   t0, 1000
        li   a7, 4              # sync()
loop:   addi t0, t0, -1
        add  t1, t1, t0
        ecall
        bnez t0, loop
        li   a7, 1              # end()
        ecall
