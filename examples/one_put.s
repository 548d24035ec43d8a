# One put: what a superstep costs, small enough to count by hand.
#
#   ./bspemu run examples/one_put.s --format asm --nodes 2 --report --g 2 --l 10
#
# docs/manual/machine.md, "What a superstep costs", counts the ticks.

        li   a0, 1024       # the area: 4 bytes from 1024 on
        li   a1, 4
        li   a7, 5          # push_reg: it can be named from the next superstep on
        ecall
        li   a7, 4          # sync
        ecall

        li   a7, 3          # pid
        ecall
        bnez a0, wait       # rank 0 alone puts
        li   a0, 1          # to rank 1
        li   a1, 1028       # from 1028 on
        li   a2, 1024       # into the area
        li   a3, 0          # at its beginning
        li   a4, 4          # a word
        li   a7, 7          # put
        ecall
wait:   li   a7, 4          # sync: the word lands
        ecall

        li   a7, 1          # end
        ecall
