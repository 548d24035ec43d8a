  $ unhex > program.raw <<'END'
  > b7 02 10 00  # lui  t0, 0x100
  > 03 a3 c2 ff  # lw   t1, -4(t0)
  > a3 8f 62 fe  # sb   t1, -1(t0)
  > 93 08 10 00  # li   a7, 1
  > 73 00 00 00  # ecall
  > END
  $ bspemu run program.raw --format raw --nodes 1
