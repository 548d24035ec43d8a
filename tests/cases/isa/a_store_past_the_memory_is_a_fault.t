  $ unhex > program.raw <<'END'
  > b7 02 10 00  # lui  t0, 0x100
  > 23 80 02 00  # sb   x0, 0(t0)
  > 93 08 10 00  # li   a7, 1
  > 73 00 00 00  # ecall
  > END
  $ bspemu run program.raw --format raw --nodes 1 --report
  superstep 0: w 2 h 0 m 0 last
  total 2
  rank 0 stopped: fault StoreOutside
  [2]
