  $ unhex > program.raw <<'END'
  > 73 00 10 00  # ebreak
  > END
  $ bspemu run program.raw --format raw --nodes 1
  [2]
