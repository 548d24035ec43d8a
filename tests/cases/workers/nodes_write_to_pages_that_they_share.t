  $ cat > program.s <<'END'
  > # Each rank stores an instruction that puts its own rank into a0, where all ranks have the same bytes until then, and executes it: in
  > # the page of this code, in one that the image does not reach, and at the edge of two of these. A fetch of what another rank
  > # stored, or of the old word, is an EBREAK (status 2).
  >         li   a7, 3              # pid()
  >         ecall
  >         mv   s0, a0
  >         slli t1, a0, 20
  >         addi t1, t1, 0x513      # addi a0, x0, the rank
  >         li   t3, 0x8067         # jalr x0, 0(ra)
  >         la   t2, patch
  >         sw   t1, 0(t2)
  > patch:  ebreak
  >         bne  a0, s0, wrong
  >         li   t2, 0x8000
  >         sw   t1, 0(t2)
  >         sw   t3, 4(t2)
  >         li   a0, 99
  >         jalr ra, 0(t2)
  >         bne  a0, s0, wrong
  >         li   t2, 0x9FFC
  >         sw   t1, 0(t2)
  >         sw   t3, 4(t2)
  >         li   a0, 99
  >         jalr ra, 0(t2)
  >         bne  a0, s0, wrong
  >         addi t0, s0, 48
  >         la   a0, text
  >         sb   t0, 0(a0)
  >         li   a1, 1
  >         li   a7, 17             # write(text, 1)
  >         ecall
  >         li   a7, 1              # end()
  >         ecall
  > wrong:  ebreak
  > text:   .ascii "?"
  > END
  $ bspemu run program.s --format asm --nodes 3
  012 (no-eol)
