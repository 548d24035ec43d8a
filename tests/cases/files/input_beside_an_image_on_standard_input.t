  $ printf 'hello' > input.txt
  $ unhex <<'END' | bspemu run - --input input.txt --format raw
  > 13 05 00 10  # addi x10,x0,256
  > 93 05 00 01  # addi x11,x0,16
  > 93 08 20 01  # addi x17,x0,18
  > 73 00 00 00  # ecall
  > 93 05 05 00  # addi x11,x10,0
  > 13 05 00 10  # addi x10,x0,256
  > 93 08 10 01  # addi x17,x0,17
  > 73 00 00 00  # ecall
  > 93 08 10 00  # addi x17,x0,1
  > 73 00 00 00  # ecall
  > END
  hello (no-eol)
