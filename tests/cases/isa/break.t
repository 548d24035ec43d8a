  $ unhex <<'END' | bspemu run - --format raw
  > 73 00 10 00  # ebreak
  > END
  [2]
