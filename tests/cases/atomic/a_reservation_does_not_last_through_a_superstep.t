Between LR and SC the rank puts into the word, which lands at the sync. Nothing is reserved then: SC fails, and the word is that of the put.

  $ cat >put.s <<END
  >         la   s0,cell
  >         mv   a0,s0
  >         li   a1,4
  >         li   a7,5  # push_reg
  >         ecall
  >         li   a7,4  # sync
  >         ecall
  >         .word 0x100422af  # lr.w t0,(s0)
  >         li   a0,0
  >         la   a1,seven
  >         mv   a2,s0
  >         li   a3,0
  >         li   a4,4
  >         li   a7,7  # put
  >         ecall
  >         li   a7,4
  >         ecall
  >         li   t1,9
  >         .word 0x186422af  # sc.w t0,t1,(s0)
  >         lw   t2,0(s0)
  >         ebreak
  > seven:  .word 7
  > cell:   .word 5
  > END
  $ printf 'go\nregs 0\n' | bspemu debug put.s --format asm --atomic | sed -n '1,2p;4p'
  rank 0 stopped: fault Break
  rank 0 pc 00000058 ticks 23 state fault Break
  x4=00000000 x5=00000001 x6=00000009 x7=00000007
