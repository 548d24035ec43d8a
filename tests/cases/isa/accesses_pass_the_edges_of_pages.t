  $ cat > program.s <<'END'
  > # Stores of 4, 2 and 1 bytes at each place round the edge of two pages, each time of two into which nothing was stored before. Just
  > # the stored bytes are found then, byte by byte and by a load of the same size. A wrong one is an EBREAK (status 2).
  >         li   t1, 0x24B3C2D1
  >         li   s3, 4              # how many bytes are stored
  >         li   s0, 0x2000         # the edge
  > size:   li   s1, -5             # where the store begins, from the edge on
  > place:  add  s2, s0, s1
  >         li   t0, 4
  >         beq  s3, t0, word
  >         li   t0, 2
  >         beq  s3, t0, half
  >         sb   t1, 0(s2)
  >         lbu  t2, 0(s2)
  >         li   t3, 0xD1
  >         j    stored
  > half:   sh   t1, 0(s2)
  >         lhu  t2, 0(s2)
  >         li   t3, 0xC2D1
  >         j    stored
  > word:   sw   t1, 0(s2)
  >         lw   t2, 0(s2)
  >         mv   t3, t1
  > stored: bne  t2, t3, wrong
  >         addi s4, s0, -8         # the first byte that is looked at, 8 before the edge, and the end, 8 behind it
  >         addi s5, s0, 8
  > byte:   li   t3, 0
  >         blt  s4, s2, found      # before the store
  >         sub  t0, s4, s2
  >         bge  t0, s3, found      # behind it
  >         andi t3, t2, 0xFF
  >         srli t2, t2, 8
  > found:  lbu  t4, 0(s4)
  >         bne  t4, t3, wrong
  >         addi s4, s4, 1
  >         bne  s4, s5, byte
  >         lui  t0, 2
  >         add  s0, s0, t0
  >         addi s1, s1, 1
  >         li   t0, 2
  >         bne  s1, t0, place
  >         srli s3, s3, 1
  >         bne  s3, x0, size
  >         li   t0, 0x2C000        # 21 pairs of pages
  >         bne  s0, t0, wrong
  >         li   a7, 1              # end()
  >         ecall
  > wrong:  ebreak
  > END
  $ bspemu run program.s --format asm
