  $ unhex > program.raw <<'END'
  > # abort(0x1000, 2) with the bytes `no` there.
  > b7 72 00 00 93 82 e2 f6  # li   t0, 0x6f6e
  > 37 13 00 00              # lui  t1, 1
  > 23 10 53 00              # sh   t0, 0(t1)
  > 37 15 00 00              # li   a0, 0x1000
  > 93 05 20 00              # li   a1, 2
  > 93 08 00 01              # li   a7, 16
  > 73 00 00 00              # ecall
  > END
  $ bspemu run program.raw --format raw --nodes 1
  no (no-eol)
  [2]
