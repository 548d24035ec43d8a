  $ cat > program.s <<'END'
  > # Each store changes the instruction right behind it, which was executed before as it was: within a page, and where the next page begins.
  >         .entry start
  > show:   la    t6, digits            # writes the digit a0
  >         add   a0, a0, t6
  >         li    a1, 1
  >         li    a7, 17
  >         ecall
  >         ret
  > digits: .ascii "0123456789"
  >         .align 2
  > start:  li    s2, 0x00000513        # addi a0, x0, 0, and its immediate is at bit 20
  >         li    s0, 1
  > again:  slli  t1, s0, 20
  >         add   t1, t1, s2
  >         jal   ra, word              # the digit s0
  >         jal   ra, show
  >         jal   ra, byte
  >         jal   ra, show              # 5, and not 0
  >         jal   ra, edge
  >         jal   ra, show              # the digit s0
  >         addi  s0, s0, 1
  >         li    t0, 4
  >         bne   s0, t0, again
  >         li    a7, 1
  >         ecall
  > word:   la    t0, behind
  >         sw    t1, 0(t0)
  > behind: li    a0, 9
  >         ret
  > byte:   la    t0, after
  >         li    t2, 0x50
  >         addi  t3, x0, 0
  >         sb    t2, 2(t0)
  > after:  addi  a0, x0, 0
  >         ret
  > edge:   la    t0, beyond
  >         j     last
  >         .align 12
  >         .space 4092
  > last:   sw    t1, 0(t0)
  > beyond: li    a0, 9
  >         ret
  > END
  $ bspemu run program.s --format asm --memory 65536
  151252353 (no-eol)
