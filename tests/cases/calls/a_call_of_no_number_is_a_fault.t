  $ unhex > program.raw <<'END'
  > 93 08 30 01  # li   a7, 19
  > 73 00 00 00  # ecall
  > END
  $ bspemu run program.raw --format raw --nodes 1 --report
  superstep 0: w 2 h 0 m 0 last
  total 2
  rank 0 stopped: fault UnknownCall
  [2]
