# Each instruction of extension A gives what its clause of the manual says, or the node ends with `wrong` and the number of the test in a0.
        la   s0,cell
        li   a0,1 # amoswap.w t0,t1,(s0): 0x80000000 and 0x7fffffff
        li   t2,0x80000000
        sw   t2,0(s0)
        li   t1,0x7fffffff
        .word 0x086422af
        lw   t2,0(s0)
        li   t3,0x80000000
        bne  t0,t3,wrong
        li   t3,0x7fffffff
        bne  t2,t3,wrong
        li   a0,2 # amoswap.w.rl t0,t1,(s0): 0xffffffff and 0x1
        li   t2,0xffffffff
        sw   t2,0(s0)
        li   t1,0x1
        .word 0x0a6422af
        lw   t2,0(s0)
        li   t3,0xffffffff
        bne  t0,t3,wrong
        li   t3,0x1
        bne  t2,t3,wrong
        li   a0,3 # amoswap.w.aq t0,t1,(s0): 0x5 and 0xfffffffd
        li   t2,0x5
        sw   t2,0(s0)
        li   t1,0xfffffffd
        .word 0x0c6422af
        lw   t2,0(s0)
        li   t3,0x5
        bne  t0,t3,wrong
        li   t3,0xfffffffd
        bne  t2,t3,wrong
        li   a0,4 # amoadd.w.aqrl t0,t1,(s0): 0x80000000 and 0x7fffffff
        li   t2,0x80000000
        sw   t2,0(s0)
        li   t1,0x7fffffff
        .word 0x066422af
        lw   t2,0(s0)
        li   t3,0x80000000
        bne  t0,t3,wrong
        li   t3,0xffffffff
        bne  t2,t3,wrong
        li   a0,5 # amoadd.w t0,t1,(s0): 0xffffffff and 0x1
        li   t2,0xffffffff
        sw   t2,0(s0)
        li   t1,0x1
        .word 0x006422af
        lw   t2,0(s0)
        li   t3,0xffffffff
        bne  t0,t3,wrong
        li   t3,0x0
        bne  t2,t3,wrong
        li   a0,6 # amoadd.w.rl t0,t1,(s0): 0x5 and 0xfffffffd
        li   t2,0x5
        sw   t2,0(s0)
        li   t1,0xfffffffd
        .word 0x026422af
        lw   t2,0(s0)
        li   t3,0x5
        bne  t0,t3,wrong
        li   t3,0x2
        bne  t2,t3,wrong
        li   a0,7 # amoxor.w.aq t0,t1,(s0): 0x80000000 and 0x7fffffff
        li   t2,0x80000000
        sw   t2,0(s0)
        li   t1,0x7fffffff
        .word 0x246422af
        lw   t2,0(s0)
        li   t3,0x80000000
        bne  t0,t3,wrong
        li   t3,0xffffffff
        bne  t2,t3,wrong
        li   a0,8 # amoxor.w.aqrl t0,t1,(s0): 0xffffffff and 0x1
        li   t2,0xffffffff
        sw   t2,0(s0)
        li   t1,0x1
        .word 0x266422af
        lw   t2,0(s0)
        li   t3,0xffffffff
        bne  t0,t3,wrong
        li   t3,0xfffffffe
        bne  t2,t3,wrong
        li   a0,9 # amoxor.w t0,t1,(s0): 0x5 and 0xfffffffd
        li   t2,0x5
        sw   t2,0(s0)
        li   t1,0xfffffffd
        .word 0x206422af
        lw   t2,0(s0)
        li   t3,0x5
        bne  t0,t3,wrong
        li   t3,0xfffffff8
        bne  t2,t3,wrong
        li   a0,10 # amoand.w.rl t0,t1,(s0): 0x80000000 and 0x7fffffff
        li   t2,0x80000000
        sw   t2,0(s0)
        li   t1,0x7fffffff
        .word 0x626422af
        lw   t2,0(s0)
        li   t3,0x80000000
        bne  t0,t3,wrong
        li   t3,0x0
        bne  t2,t3,wrong
        li   a0,11 # amoand.w.aq t0,t1,(s0): 0xffffffff and 0x1
        li   t2,0xffffffff
        sw   t2,0(s0)
        li   t1,0x1
        .word 0x646422af
        lw   t2,0(s0)
        li   t3,0xffffffff
        bne  t0,t3,wrong
        li   t3,0x1
        bne  t2,t3,wrong
        li   a0,12 # amoand.w.aqrl t0,t1,(s0): 0x5 and 0xfffffffd
        li   t2,0x5
        sw   t2,0(s0)
        li   t1,0xfffffffd
        .word 0x666422af
        lw   t2,0(s0)
        li   t3,0x5
        bne  t0,t3,wrong
        li   t3,0x5
        bne  t2,t3,wrong
        li   a0,13 # amoor.w t0,t1,(s0): 0x80000000 and 0x7fffffff
        li   t2,0x80000000
        sw   t2,0(s0)
        li   t1,0x7fffffff
        .word 0x406422af
        lw   t2,0(s0)
        li   t3,0x80000000
        bne  t0,t3,wrong
        li   t3,0xffffffff
        bne  t2,t3,wrong
        li   a0,14 # amoor.w.rl t0,t1,(s0): 0xffffffff and 0x1
        li   t2,0xffffffff
        sw   t2,0(s0)
        li   t1,0x1
        .word 0x426422af
        lw   t2,0(s0)
        li   t3,0xffffffff
        bne  t0,t3,wrong
        li   t3,0xffffffff
        bne  t2,t3,wrong
        li   a0,15 # amoor.w.aq t0,t1,(s0): 0x5 and 0xfffffffd
        li   t2,0x5
        sw   t2,0(s0)
        li   t1,0xfffffffd
        .word 0x446422af
        lw   t2,0(s0)
        li   t3,0x5
        bne  t0,t3,wrong
        li   t3,0xfffffffd
        bne  t2,t3,wrong
        li   a0,16 # amomin.w.aqrl t0,t1,(s0): 0x80000000 and 0x7fffffff
        li   t2,0x80000000
        sw   t2,0(s0)
        li   t1,0x7fffffff
        .word 0x866422af
        lw   t2,0(s0)
        li   t3,0x80000000
        bne  t0,t3,wrong
        li   t3,0x80000000
        bne  t2,t3,wrong
        li   a0,17 # amomin.w t0,t1,(s0): 0xffffffff and 0x1
        li   t2,0xffffffff
        sw   t2,0(s0)
        li   t1,0x1
        .word 0x806422af
        lw   t2,0(s0)
        li   t3,0xffffffff
        bne  t0,t3,wrong
        li   t3,0xffffffff
        bne  t2,t3,wrong
        li   a0,18 # amomin.w.rl t0,t1,(s0): 0x5 and 0xfffffffd
        li   t2,0x5
        sw   t2,0(s0)
        li   t1,0xfffffffd
        .word 0x826422af
        lw   t2,0(s0)
        li   t3,0x5
        bne  t0,t3,wrong
        li   t3,0xfffffffd
        bne  t2,t3,wrong
        li   a0,19 # amomax.w.aq t0,t1,(s0): 0x80000000 and 0x7fffffff
        li   t2,0x80000000
        sw   t2,0(s0)
        li   t1,0x7fffffff
        .word 0xa46422af
        lw   t2,0(s0)
        li   t3,0x80000000
        bne  t0,t3,wrong
        li   t3,0x7fffffff
        bne  t2,t3,wrong
        li   a0,20 # amomax.w.aqrl t0,t1,(s0): 0xffffffff and 0x1
        li   t2,0xffffffff
        sw   t2,0(s0)
        li   t1,0x1
        .word 0xa66422af
        lw   t2,0(s0)
        li   t3,0xffffffff
        bne  t0,t3,wrong
        li   t3,0x1
        bne  t2,t3,wrong
        li   a0,21 # amomax.w t0,t1,(s0): 0x5 and 0xfffffffd
        li   t2,0x5
        sw   t2,0(s0)
        li   t1,0xfffffffd
        .word 0xa06422af
        lw   t2,0(s0)
        li   t3,0x5
        bne  t0,t3,wrong
        li   t3,0x5
        bne  t2,t3,wrong
        li   a0,22 # amominu.w.rl t0,t1,(s0): 0x80000000 and 0x7fffffff
        li   t2,0x80000000
        sw   t2,0(s0)
        li   t1,0x7fffffff
        .word 0xc26422af
        lw   t2,0(s0)
        li   t3,0x80000000
        bne  t0,t3,wrong
        li   t3,0x7fffffff
        bne  t2,t3,wrong
        li   a0,23 # amominu.w.aq t0,t1,(s0): 0xffffffff and 0x1
        li   t2,0xffffffff
        sw   t2,0(s0)
        li   t1,0x1
        .word 0xc46422af
        lw   t2,0(s0)
        li   t3,0xffffffff
        bne  t0,t3,wrong
        li   t3,0x1
        bne  t2,t3,wrong
        li   a0,24 # amominu.w.aqrl t0,t1,(s0): 0x5 and 0xfffffffd
        li   t2,0x5
        sw   t2,0(s0)
        li   t1,0xfffffffd
        .word 0xc66422af
        lw   t2,0(s0)
        li   t3,0x5
        bne  t0,t3,wrong
        li   t3,0x5
        bne  t2,t3,wrong
        li   a0,25 # amomaxu.w t0,t1,(s0): 0x80000000 and 0x7fffffff
        li   t2,0x80000000
        sw   t2,0(s0)
        li   t1,0x7fffffff
        .word 0xe06422af
        lw   t2,0(s0)
        li   t3,0x80000000
        bne  t0,t3,wrong
        li   t3,0x80000000
        bne  t2,t3,wrong
        li   a0,26 # amomaxu.w.rl t0,t1,(s0): 0xffffffff and 0x1
        li   t2,0xffffffff
        sw   t2,0(s0)
        li   t1,0x1
        .word 0xe26422af
        lw   t2,0(s0)
        li   t3,0xffffffff
        bne  t0,t3,wrong
        li   t3,0xffffffff
        bne  t2,t3,wrong
        li   a0,27 # amomaxu.w.aq t0,t1,(s0): 0x5 and 0xfffffffd
        li   t2,0x5
        sw   t2,0(s0)
        li   t1,0xfffffffd
        .word 0xe46422af
        lw   t2,0(s0)
        li   t3,0x5
        bne  t0,t3,wrong
        li   t3,0xfffffffd
        bne  t2,t3,wrong
        li   a0,28 # sc without a reservation
        li   t2,0x11
        sw   t2,0(s0)
        li   t2,0x22
        sw   t2,4(s0)
        addi s1,s0,4
        li   t1,0x33
        .word 0x186422af # sc.w x5,x6,(x8)
        li   t3,0x1
        bne  t0,t3,wrong
        lw   t2,0(s0)
        li   t3,0x11
        bne  t2,t3,wrong
        li   a0,29 # lr, and then sc
        li   t2,0x11
        sw   t2,0(s0)
        li   t2,0x22
        sw   t2,4(s0)
        addi s1,s0,4
        .word 0x160422af # lr.w.aqrl x5,(x8)
        li   t3,0x11
        bne  t0,t3,wrong
        li   t1,0x44
        .word 0x1a6422af # sc.w.rl x5,x6,(x8)
        li   t3,0x0
        bne  t0,t3,wrong
        lw   t2,0(s0)
        li   t3,0x44
        bne  t2,t3,wrong
        li   a0,30 # another sc, which finds nothing reserved
        li   t1,0x55
        .word 0x186422af # sc.w x5,x6,(x8)
        li   t3,0x1
        bne  t0,t3,wrong
        lw   t2,0(s0)
        li   t3,0x44
        bne  t2,t3,wrong
        li   a0,31 # sc of another word
        li   t2,0x11
        sw   t2,0(s0)
        li   t2,0x22
        sw   t2,4(s0)
        addi s1,s0,4
        .word 0x100422af # lr.w x5,(x8)
        .word 0x1864a2af # sc.w x5,x6,(x9)
        li   t3,0x1
        bne  t0,t3,wrong
        lw   t2,4(s0)
        li   t3,0x22
        bne  t2,t3,wrong
        li   a0,32 # which has invalidated the reservation
        .word 0x186422af # sc.w x5,x6,(x8)
        li   t3,0x1
        bne  t0,t3,wrong
        lw   t2,0(s0)
        li   t3,0x11
        bne  t2,t3,wrong
        li   a0,33 # the last lr counts
        li   t2,0x11
        sw   t2,0(s0)
        li   t2,0x22
        sw   t2,4(s0)
        addi s1,s0,4
        .word 0x100422af # lr.w x5,(x8)
        .word 0x1404a2af # lr.w.aq x5,(x9)
        li   t3,0x22
        bne  t0,t3,wrong
        .word 0x186422af # sc.w x5,x6,(x8)
        li   t3,0x1
        bne  t0,t3,wrong
        lw   t2,0(s0)
        li   t3,0x11
        bne  t2,t3,wrong
        li   a0,34 # and its word
        li   t2,0x11
        sw   t2,0(s0)
        li   t2,0x22
        sw   t2,4(s0)
        addi s1,s0,4
        .word 0x100422af # lr.w x5,(x8)
        .word 0x1004a2af # lr.w x5,(x9)
        li   t1,0x66
        .word 0x1864a2af # sc.w x5,x6,(x9)
        li   t3,0x0
        bne  t0,t3,wrong
        lw   t2,4(s0)
        li   t3,0x66
        bne  t2,t3,wrong
        li   a0,35 # a store of the node leaves the reservation
        li   t2,0x11
        sw   t2,0(s0)
        li   t2,0x22
        sw   t2,4(s0)
        addi s1,s0,4
        .word 0x100422af # lr.w x5,(x8)
        li   t1,0x77
        sw   t1,0(s0)
        li   t1,0x78
        .word 0x186422af # sc.w x5,x6,(x8)
        li   t3,0x0
        bne  t0,t3,wrong
        lw   t2,0(s0)
        li   t3,0x78
        bne  t2,t3,wrong
        li   a0,36 # and so does an atomic memory operation
        li   t2,0x11
        sw   t2,0(s0)
        li   t2,0x22
        sw   t2,4(s0)
        addi s1,s0,4
        .word 0x100422af # lr.w x5,(x8)
        .word 0x0064202f # amoadd.w x0,x6,(x8)
        lw   t2,0(s0)
        li   t3,0x89
        bne  t2,t3,wrong
        .word 0x186422af # sc.w x5,x6,(x8)
        li   t3,0x0
        bne  t0,t3,wrong
        li   a0,37 # a call invalidates it
        li   t2,0x11
        sw   t2,0(s0)
        li   t2,0x22
        sw   t2,4(s0)
        addi s1,s0,4
        .word 0x100422af # lr.w x5,(x8)
        mv   s2,a0
        li   a7,3
        ecall
        mv   a0,s2
        .word 0x186422af # sc.w x5,x6,(x8)
        li   t3,0x1
        bne  t0,t3,wrong
        lw   t2,0(s0)
        li   t3,0x11
        bne  t2,t3,wrong
        li   a0,38 # lr into x0, sc with its answer into x0
        li   t2,0x11
        sw   t2,0(s0)
        li   t2,0x22
        sw   t2,4(s0)
        addi s1,s0,4
        .word 0x1004202f # lr.w x0,(x8)
        li   t1,0x99
        .word 0x1864202f # sc.w x0,x6,(x8)
        lw   t2,0(s0)
        li   t3,0x99
        bne  t2,t3,wrong
        li   t3,0x0
        bne  x0,t3,wrong
        li   a0,39 # one register for all: amoadd.w s1,s1,(s1)
        li   t2,0x11
        sw   t2,0(s0)
        li   t2,0x22
        sw   t2,4(s0)
        addi s1,s0,4
        .word 0x0094a4af
        li   t3,0x22
        bne  s1,t3,wrong
        lw   t2,4(s0)
        addi t3,s0,0x26
        bne  t2,t3,wrong
        li   a0,40 # sc.w s1,s1,(s1), which stores the address
        li   t2,0x11
        sw   t2,0(s0)
        li   t2,0x22
        sw   t2,4(s0)
        addi s1,s0,4
        .word 0x1004a2af # lr.w x5,(x9)
        .word 0x1894a4af # sc.w x9,x9,(x9)
        li   t3,0x0
        bne  s1,t3,wrong
        lw   t2,4(s0)
        addi t3,s0,4
        bne  t2,t3,wrong
        la   a0,right
        li   a1,3
        li   a7,17
        ecall
        li   a7,1
        ecall
wrong:  mv   s2,a0
        la   a0,failed
        li   a1,6
        li   a7,17
        ecall
        mv   a0,s2
        ebreak
right:  .ascii "ok\n"
failed: .ascii "wrong\n"
        .align 2
cell:   .word 0,0
