# A node that makes two steps and ends.
        li   a7, 1              # end()
        ecall
