  $ unhex > program.raw <<'END'
  > b7 02 10 00  # lui  t0, 0x100
  > 67 80 02 00  # jr   t0
  > END
  $ bspemu run program.raw --format raw --nodes 1
  [2]
