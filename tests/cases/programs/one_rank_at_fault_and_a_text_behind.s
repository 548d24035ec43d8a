    li a7,3
    ecall
    li t0,1
    beq a0,t0,bad
    la a0,text
    li a1,1
    li a7,17
    ecall
loop:
    j loop
bad:
    .word 0xFFFFFFFF
text:
    .ascii "a"
