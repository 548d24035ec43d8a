  $ unhex <<'END' | bspemu run - --format raw
  > 13 05 00 10  # addi x10,x0,256
  > b7 72 00 00  # lui x5,0x7
  > 93 82 e2 f6  # addi x5,x5,-146
  > 23 20 50 10  # sw x5,256(x0)
  > 93 05 20 00  # addi x11,x0,2
  > 93 08 00 01  # addi x17,x0,16
  > 73 00 00 00  # ecall
  > END
  no (no-eol)
  [2]
