  $ unhex <<'END' | bspemu run - --nodes 3 --format raw
  > 93 08 30 00  # addi x17,x0,3
  > 73 00 00 00  # ecall
  > 13 05 05 03  # addi x10,x10,48
  > 23 20 a0 10  # sw x10,256(x0)
  > 13 05 00 10  # addi x10,x0,256
  > 93 05 10 00  # addi x11,x0,1
  > 93 08 10 01  # addi x17,x0,17
  > 73 00 00 00  # ecall
  > ff ff ff ff  # .word 0xffffffff
  > END
  012 (no-eol)
  [2]
