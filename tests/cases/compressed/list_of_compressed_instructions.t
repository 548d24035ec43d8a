  $ unhex > program.raw <<'END'
  > 8d 48 73 00 00 00 13 05 05 03 23 20 a0 10 13 05
  > 00 10 85 45 c5 48 73 00 00 00 85 48 73 00 00 00
  > 00 00 02 80 17 00
  > END
  $ bspemu list program.raw --format raw
  00000000: 488d      addi x17,x0,3 # compressed
  00000002: 00000073  ecall
  00000006: 03050513  addi x10,x10,48
  0000000a: 10a02023  sw x10,256(x0)
  0000000e: 10000513  addi x10,x0,256
  00000012: 4585      addi x11,x0,1 # compressed
  00000014: 48c5      addi x17,x0,17 # compressed
  00000016: 00000073  ecall
  0000001a: 4885      addi x17,x0,1 # compressed
  0000001c: 00000073  ecall
  00000020: 0000      .half 0x0000
  00000022: 8002      .half 0x8002
  00000024: 17        .byte 0x17
  00000025: 00        .byte 0x00
