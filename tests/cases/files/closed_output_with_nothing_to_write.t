  $ unhex <<'END' | bspemu run - --format raw >&-
  > 93 08 10 00  # addi x17,x0,1
  > 73 00 00 00  # ecall
  > END
