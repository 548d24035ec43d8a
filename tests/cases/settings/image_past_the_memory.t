  $ unhex > image.raw <<'END'
  > 93 08 30 00  # addi x17,x0,3
  > 73 00 00 00  # ecall
  > 13 05 05 03  # addi x10,x10,48
  > 23 20 a0 10  # sw x10,256(x0)
  > 13 05 00 10  # addi x10,x0,256
  > 93 05 10 00  # addi x11,x0,1
  > 93 08 10 01  # addi x17,x0,17
  > 73 00 00 00  # ecall
  > 93 08 10 00  # addi x17,x0,1
  > 73 00 00 00  # ecall
  > END
  $ truncate -s 4100 image.raw
  $ bspemu run image.raw --memory 4096 --format raw
  bspemu: image refused: SegmentOutside (stderr)
  [1]
