  $ cat > program.s <<'END'
  > # Steps that differ in number before a loop of nine, so that a slice ends in each of its places: the bytes are the same in two workers.
  >         .entry start
  > sum:    .word 0
  > start:  li    a7, 3             # pid()
  >         ecall
  >         li    t0, 30000
  >         slli  t1, a0, 2
  >         la    t2, next
  >         sub   t2, t2, t1
  >         jr    t2                # as many steps as the rank
  >         nop
  >         nop
  >         nop
  >         nop
  >         nop
  >         nop
  >         nop
  >         nop
  >         nop
  > next:   add   s0, s0, t0
  >         xor   s1, s1, s0
  >         slli  s2, s1, 1
  >         la    t3, sum
  >         sw    s0, 0x7F0(t3)
  >         lw    s3, 0x7F0(t3)
  >         addi  t0, t0, -1
  >         bnez  t0, next
  >         la    a0, sum
  >         add   s0, s0, s1
  >         add   s0, s0, s2
  >         add   s0, s0, s3
  >         sw    s0, 0x7F4(a0)
  >         addi  a0, a0, 0x7F4
  >         li    a1, 4
  >         li    a7, 17            # write(sum, 4)
  >         ecall
  >         li    a7, 1             # end()
  >         ecall
  > END
  $ bspemu run program.s --format asm --memory 65536 --nodes 10 --workers 1 --report --ledger 1 | od -An -v -tx1 | head -n 4
   d0 7b 9a 6d d0 7b 9a 6d d0 7b 9a 6d d0 7b 9a 6d
   d0 7b 9a 6d d0 7b 9a 6d d0 7b 9a 6d d0 7b 9a 6d
   d0 7b 9a 6d d0 7b 9a 6d 73 75 70 65 72 73 74 65
   70 20 30 3a 20 77 20 32 37 30 30 33 30 20 68 20
  $ bspemu run program.s --format asm --memory 65536 --nodes 10 --workers 2 --report --ledger 1 | od -An -v -tx1 | head -n 4
   d0 7b 9a 6d d0 7b 9a 6d d0 7b 9a 6d d0 7b 9a 6d
   d0 7b 9a 6d d0 7b 9a 6d d0 7b 9a 6d d0 7b 9a 6d
   d0 7b 9a 6d d0 7b 9a 6d 73 75 70 65 72 73 74 65
   70 20 30 3a 20 77 20 32 37 30 30 33 30 20 68 20
  $ bspemu run program.s --format asm --memory 65536 --nodes 10 --workers 3 --report --ledger 1 | tail -n 3
  \xd0{\x9am\xd0{\x9am\xd0{\x9am\xd0{\x9am\xd0{\x9am\xd0{\x9am\xd0{\x9am\xd0{\x9am\xd0{\x9am\xd0{\x9amsuperstep 0: w 270030 h 0 last (esc)
  total 270030
  ended
