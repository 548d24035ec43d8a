  $ unhex > bytes <<'END'
  > 93 08 30 00 73 00
  > END
  $ bspemu list bytes --format raw
  00000000: 00300893  addi x17,x0,3
  00000004: 73        .byte 0x73
  00000005: 00        .byte 0x00
