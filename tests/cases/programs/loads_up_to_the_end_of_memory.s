# Adds the doubles of the memory, which is 0 behind the code, up to its end and past it. Where x9 is not 0 it stores them.
        la s0, place
        li s1, STORES
loop:   addi s2, s2, 1
        bnez s1, store
        .word 0x00043087                # fld f1,0(x8)
        j next
store:  .word 0x00243027                # fsd f2,0(x8)
next:   .word 0x02117153                # fadd.d f2,f2,f1
        addi s0, s0, 8
        j loop
        .align 12
place:
