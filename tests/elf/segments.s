# Code, data and zeros in segments of their own: each rank adds its number to a digit of .data, keeps the sum in .bss
# and writes both bytes around it.
    .globl _start
    .text
_start:
    li    a7, 3             # pid()
    ecall
    la    t0, digit
    lbu   t1, 0(t0)
    add   t1, t1, a0
    la    t2, sum
    lbu   t3, 1(t2)         # 0 at the start
    add   t1, t1, t3
    sb    t1, 0(t2)
    mv    a0, t2
    li    a1, 1
    li    a7, 17            # write(sum, 1)
    ecall
    la    a0, end_of_line
    li    a7, 17            # write(end_of_line, 1)
    ecall
    li    a7, 1             # end()
    ecall
    .data
digit:
    .byte 48
end_of_line:
    .byte 10
    .bss
sum:
    .space 4096
