  $ unhex > program.raw <<'END'
  > # Each result is compared; a wrong one is an EBREAK (status 2), and the program ends with status 0.
  > 37 04 00 80  # lui  s0, 0x80000  -- -2^31
  > 93 04 f0 ff  # li   s1, -1
  > 13 09 70 00  # li   s2, 7
  > b3 42 94 02  # div  t0, s0, s1
  > 63 9c 82 06  # bne  t0, s0, wrong
  > b3 62 94 02  # rem  t0, s0, s1
  > 63 98 02 06  # bnez t0, wrong
  > b3 42 09 02  # div  t0, s2, x0
  > 63 94 92 06  # bne  t0, s1, wrong
  > b3 62 09 02  # rem  t0, s2, x0
  > 63 90 22 07  # bne  t0, s2, wrong
  > b3 52 09 02  # divu t0, s2, x0
  > 63 9c 92 04  # bne  t0, s1, wrong
  > b3 72 09 02  # remu t0, s2, x0
  > 63 98 22 05  # bne  t0, s2, wrong
  > 13 03 90 ff  # li   t1, -7
  > 93 03 20 00  # li   t2, 2
  > b3 42 73 02  # div  t0, t1, t2
  > 13 0e d0 ff  # li   t3, -3
  > 63 9e c2 03  # bne  t0, t3, wrong
  > b3 62 73 02  # rem  t0, t1, t2
  > 63 9a 92 02  # bne  t0, s1, wrong
  > b3 a2 94 02  # mulhsu t0, s1, s1
  > 63 96 92 02  # bne  t0, s1, wrong
  > b3 b2 94 02  # mulhu t0, s1, s1
  > 13 0e e0 ff  # li   t3, -2
  > 63 90 c2 03  # bne  t0, t3, wrong
  > b3 92 94 02  # mulh t0, s1, s1
  > 63 9c 02 00  # bnez t0, wrong
  > 93 32 f0 ff  # sltiu t0, x0, -1
  > 13 0e 10 00  # li   t3, 1
  > 63 96 c2 01  # bne  t0, t3, wrong
  > 93 08 10 00  # li   a7, 1
  > 73 00 00 00  # ecall
  > # wrong:
  > 73 00 10 00  # ebreak
  > END
  $ bspemu run program.raw --format raw --nodes 1
