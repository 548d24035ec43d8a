  $ cat > program.s <<'END'
  > # Code is copied, changed, copied back, read as data and executed, with loops that go back and forth between pages that are the node's
  > # own and pages that it shares. Each version writes a digit. Nothing is stored into the page from which they are written. The limit is
  > # just the ticks that all of this takes, and in a second run one less.
  >         .entry start
  > show:   la    t6, digits            # writes the digit a0
  >         add   a0, a0, t6
  >         li    a1, 1
  >         li    a7, 17
  >         ecall
  >         ret
  > digits: .ascii "0123456789"
  >         .align 2
  > start:  jal   s0, copies
  >         jal   s0, calls
  >         jal   s0, called
  >         jal   s0, beside
  >         li    a7, 1                 # end()
  >         ecall
  >
  >         .align 12
  > code:   addi  a0, x0, 1
  >         ret
  >
  >         .align 12
  > copies: la    s1, code
  >         li    s2, 0xF000            # where the image does not reach
  >         jalr  ra, 0(s1)
  >         jal   ra, show              # 1
  >         lw    t0, 0(s1)
  >         lw    t1, 4(s1)
  >         sw    t0, 0(s2)
  >         sw    t1, 4(s2)
  >         jalr  ra, 0(s2)
  >         jal   ra, show              # 1, of the copy
  >         li    t0, 0x00200513        # addi a0, x0, 2
  >         sw    t0, 0(s2)
  >         jalr  ra, 0(s2)
  >         jal   ra, show              # 2, of the copy
  >         jalr  ra, 0(s1)
  >         jal   ra, show              # 1
  >         lw    t0, 0(s2)
  >         sw    t0, 0(s1)             # back: the page of the code is own from here on
  >         jalr  ra, 0(s1)
  >         jal   ra, show              # 2
  >         lw    a0, 0(s1)
  >         srli  a0, a0, 20
  >         jal   ra, show              # 2, as data
  >         li    t0, 0x00300513
  >         sw    t0, 0(s1)
  >         jalr  ra, 0(s1)
  >         jal   ra, show              # 3
  >         lw    a0, 0(s1)
  >         srli  a0, a0, 20
  >         jal   ra, show              # 3, as data
  >         jalr  ra, 0(s2)
  >         jal   ra, show              # 2, of the copy
  >         jr    s0
  >
  >         .align 12
  > calls:  la    s1, number            # from a shared page into one that each turn changes
  >         li    s2, 10
  >         li    t2, 0x00100000        # 1 more in an immediate
  > turn:   jal   ra, number
  >         jal   ra, show              # 0 1 2 3 4 5 6 7 8 9
  >         lw    t0, 0(s1)
  >         add   t0, t0, t2
  >         sw    t0, 0(s1)
  >         addi  s2, s2, -1
  >         bnez  s2, turn
  >         jr    s0
  >
  >         .align 12
  > number: addi  a0, x0, 0
  >         ret
  >
  >         .align 12
  > called: la    s1, even              # from a page that each turn changes into a shared one
  >         li    s2, 4
  >         li    t2, 0x00200000
  > even:   addi  a0, x0, 0
  >         jal   ra, more
  >         jal   ra, show              # 1 3 5 7
  >         lw    t0, 0(s1)
  >         add   t0, t0, t2
  >         sw    t0, 0(s1)
  >         addi  s2, s2, -1
  >         bnez  s2, even
  >         jr    s0
  >
  >         .align 12
  > more:   addi  a0, a0, 1
  >         ret
  >
  >         .align 12
  > beside: la    s1, tally             # a loop with a variable in its page
  >         li    s2, 9
  > count:  lw    a0, 0(s1)
  >         addi  a0, a0, 1
  >         sw    a0, 0(s1)
  >         addi  s2, s2, -1
  >         bnez  s2, count
  >         jal   ra, show              # 9
  >         jr    s0
  > tally:  .word 0
  > END
  $ bspemu run program.s --format asm --report --limit 417
  112122332012345678913579superstep 0: w 417 h 0 m 0 last
  total 417
  ended
  $ bspemu run program.s --format asm --report --limit 416
  112122332012345678913579superstep 0: w 416 h 0 m 0 last
  total 416
  rank 0 stopped: exhausted
  [3]
