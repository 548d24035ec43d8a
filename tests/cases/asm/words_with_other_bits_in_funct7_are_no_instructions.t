The words of instructions with one bit of funct7 turned that their rows fix are no instructions.

  $ cat > words.s <<'END'
  >     .word 0x043100b3        # add x1,x2,x3 with bit 26
  >     .word 0x603100b3        # sub x1,x2,x3 with bit 29
  >     .word 0x043150b3        # srl x1,x2,x3 with bit 26
  >     .word 0x603150b3        # sra x1,x2,x3 with bit 29
  >     .word 0x083100b3        # mul x1,x2,x3 with bit 27, without bit 25
  >     .word 0x02311093        # slli x1,x2,3 with bit 25
  >     .word 0x40311093        # slli x1,x2,3 with bit 30
  >     .word 0x02315093        # srli x1,x2,3 with bit 25
  >     .word 0x42315093        # srai x1,x2,3 with bit 25
  >     .word 0xc0315093        # srai x1,x2,3 with bit 31
  > END
  $ bspemu list words.s --format asm
  00000000: 043100b3  .word 0x043100b3
  00000004: 603100b3  .word 0x603100b3
  00000008: 043150b3  .word 0x043150b3
  0000000c: 603150b3  .word 0x603150b3
  00000010: 083100b3  .word 0x083100b3
  00000014: 02311093  .word 0x02311093
  00000018: 40311093  .word 0x40311093
  0000001c: 02315093  .word 0x02315093
  00000020: 42315093  .word 0x42315093
  00000024: c0315093  .word 0xc0315093
