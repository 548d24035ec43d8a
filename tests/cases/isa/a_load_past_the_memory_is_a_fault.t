  $ unhex > program.raw <<'END'
  > b7 02 10 00  # lui  t0, 0x100
  > 03 a3 d2 ff  # lw   t1, -3(t0)
  > 93 08 10 00  # li   a7, 1
  > 73 00 00 00  # ecall
  > END
  $ bspemu run program.raw --format raw --nodes 1
  [2]
