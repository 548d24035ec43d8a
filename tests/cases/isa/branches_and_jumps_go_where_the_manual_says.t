  $ cat > program.s <<'END'
  > # Where branches and jumps go, and what they link, by the RISC-V Unprivileged ISA 20191213, section 2.5. A branch that is not
  > # taken goes to `wrong` where it is taken after all; an EBREAK is status 2.
  >     li     t0, 5
  >     li     t1, 5
  >     beq    t0, t1, taken1
  >     ebreak
  > taken1:
  >     li     t1, 6
  >     beq    t0, t1, wrong
  >     bne    t0, t1, taken2
  >     ebreak
  > taken2:
  >     li     t1, 5
  >     bne    t0, t1, wrong
  >     li     t0, 0x80000000
  >     li     t1, 0
  >     blt    t0, t1, taken3
  >     ebreak
  > taken3:
  >     li     t0, 0
  >     li     t1, 0x80000000
  >     blt    t0, t1, wrong
  >     li     t0, 5
  >     li     t1, 5
  >     blt    t0, t1, wrong
  >     li     t0, 0
  >     li     t1, 0x80000000
  >     bge    t0, t1, taken4
  >     ebreak
  > taken4:
  >     li     t0, 5
  >     li     t1, 5
  >     bge    t0, t1, taken5
  >     ebreak
  > taken5:
  >     li     t0, 0x80000000
  >     li     t1, 0
  >     bge    t0, t1, wrong
  >     li     t0, 0
  >     li     t1, 0x80000000
  >     bltu   t0, t1, taken6
  >     ebreak
  > taken6:
  >     li     t0, 0x80000000
  >     li     t1, 0
  >     bltu   t0, t1, wrong
  >     li     t0, 5
  >     li     t1, 5
  >     bltu   t0, t1, wrong
  >     li     t0, 0x80000000
  >     li     t1, 0
  >     bgeu   t0, t1, taken7
  >     ebreak
  > taken7:
  >     li     t0, 5
  >     li     t1, 5
  >     bgeu   t0, t1, taken8
  >     ebreak
  > taken8:
  >     li     t0, 0
  >     li     t1, 0x80000000
  >     bgeu   t0, t1, wrong
  > # A target of no multiple of four is no fault where the branch is not taken.
  >     li     t0, 5
  >     li     t1, 5
  > skip:
  >     bne    t0, t1, skip + 6
  > # Back, and with links.
  >     j      around
  > back:
  >     la     t3, linked
  >     bne    t2, t3, wrong
  >     j      by_register
  > around:
  >     jal    t2, back
  > linked:
  >     ebreak
  > by_register:
  >     la     t0, even
  >     jalr   t2, 0(t0)
  > after_even:
  >     ebreak
  > even:
  >     la     t3, after_even
  >     bne    t2, t3, wrong
  > # The lowest bit of the target is dropped, also of an odd sum.
  >     la     t0, odd
  >     jalr   t2, 1(t0)
  >     ebreak
  > odd:
  >     la     t0, odd_sum + 1
  >     jalr   t2, -1(t0)
  >     ebreak
  > odd_sum:
  >     la     t0, odd_address + 1
  >     jalr   t2, 0(t0)
  >     ebreak
  > odd_address:
  > # A link into the register of the target is made after it was read, and none into x0.
  >     la     t0, itself
  >     jalr   t0, 0(t0)
  > after_itself:
  >     ebreak
  > itself:
  >     la     t3, after_itself
  >     bne    t0, t3, wrong
  >     la     t0, no_link
  >     jalr   x0, 0(t0)
  >     ebreak
  > no_link:
  >     mv     t0, x0
  >     bnez   t0, wrong
  >     li     a7, 1                 # end()
  >     ecall
  > wrong:
  >     ebreak
  > END
  $ bspemu run program.s --format asm
