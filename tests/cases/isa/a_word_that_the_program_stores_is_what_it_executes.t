  $ unhex > program.raw <<'END'
  > # The program stores `addi a7, x0, 2` over its own next instruction: a0 is then the number of nodes.
  > 93 02 40 01  # li   t0, 20
  > 37 03 20 00  # lui  t1, 0x200
  > 13 03 f3 7f  # addi t1, t1, 0x7ff
  > 13 03 43 09  # addi t1, t1, 0x094  -- 0x00200893
  > 23 a0 62 00  # sw   t1, 0(t0)
  > 93 08 10 00  # addi a7, x0, 1  -- at 20
  > 73 00 00 00  # ecall
  > 93 02 30 00  # li   t0, 3
  > 63 16 55 00  # bne  a0, t0, wrong
  > 93 08 10 00  # li   a7, 1
  > 73 00 00 00  # ecall
  > # wrong:
  > 73 00 10 00  # ebreak
  > END
  $ bspemu run program.raw --format raw --nodes 3
