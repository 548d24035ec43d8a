  $ cat > text.s <<'END'
  > # Each byte, half-word and word is compared; a wrong one is an EBREAK (status 2), and the program ends with status 0.
  >     li   s0, 0x100
  >     li   t0, 0x11223344
  >     sw   t0, 0(s0)
  >     lbu  t1, 0(s0)
  >     li   t2, 0x44
  >     bne  t1, t2, wrong
  >     lbu  t1, 1(s0)
  >     li   t2, 0x33
  >     bne  t1, t2, wrong
  >     lbu  t1, 2(s0)
  >     li   t2, 0x22
  >     bne  t1, t2, wrong
  >     lbu  t1, 3(s0)
  >     li   t2, 0x11
  >     bne  t1, t2, wrong
  >     lhu  t1, 1(s0)          # at an odd address too
  >     li   t2, 0x2233
  >     bne  t1, t2, wrong
  >     li   t0, 0xAABB
  >     sh   t0, 2(s0)
  >     lw   t1, 0(s0)
  >     li   t2, 0xAABB3344
  >     bne  t1, t2, wrong
  >     li   t0, 0xCC
  >     sb   t0, 3(s0)
  >     lw   t1, 1(s0)
  >     li   t2, 0x00CCBB33
  >     bne  t1, t2, wrong
  >     li   a7, 1
  >     ecall
  > wrong:
  >     ebreak
  > END
  $ bspemu run text.s --format asm --nodes 1
