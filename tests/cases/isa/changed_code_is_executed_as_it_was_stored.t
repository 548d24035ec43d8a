  $ cat > program.s <<'END'
  > # Code that was executed before is changed, and executed as it was stored: from another page, by a store over the edge of two pages, and
  > # by a put of rank 1 into rank 0, which leaves rank 1 its own. A wrong answer is an EBREAK (status 2).
  >     .entry start
  > start:
  >     jal   ra, first             # before any change
  >     li    t0, 1
  >     bne   a0, t0, wrong
  >     jal   ra, second
  >     bne   a0, t0, wrong
  >
  >     la    t1, first             # from another page: addi a0, x0, 2
  >     li    t2, 0x00200513
  >     sw    t2, 0(t1)
  >     jal   ra, first
  >     li    t0, 2
  >     bne   a0, t0, wrong
  >
  >     la    t1, second            # over the edge: the upper half of addi a0, x0, 2, and the lower one of what stands behind
  >     addi  t1, t1, 2
  >     li    t2, 0x05130020
  >     sw    t2, 0(t1)
  >     jal   ra, second
  >     bne   a0, t0, wrong
  >
  >     la    a0, first             # by a put
  >     li    a1, 4
  >     li    a7, 5
  >     ecall
  >     li    a7, 4
  >     ecall
  >     li    a7, 3
  >     ecall
  >     mv    s0, a0
  >     beq   s0, x0, wait
  >     li    a0, 0
  >     la    a1, third
  >     la    a2, first
  >     li    a3, 0
  >     li    a4, 4
  >     li    a7, 7
  >     ecall
  > wait:
  >     jal   ra, first             # the put has not landed yet
  >     li    t0, 2
  >     bne   a0, t0, wrong
  >     li    a7, 4
  >     ecall
  >     li    t0, 3
  >     sub   t0, t0, s0            # 3 at rank 0, and 2 at rank 1
  >     jal   ra, first
  >     bne   a0, t0, wrong
  >     li    a7, 1
  >     ecall
  > wrong:
  >     ebreak
  >
  >     .align 12
  > third:
  >     addi  a0, x0, 3
  >     .space 4080
  > first:
  >     addi  a0, x0, 1
  >     jalr  x0, 0(ra)
  > second:                         # the last word of its page
  >     addi  a0, x0, 1
  >     addi  a0, a0, 0
  >     jalr  x0, 0(ra)
  > END
  $ bspemu run program.s --format asm --nodes 2
