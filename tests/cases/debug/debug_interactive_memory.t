Memory is shown as words, as a text and as instructions, up to N or to the end of the memory.

  $ cat > text.s <<'END'
  >     li a7, 1
  >     ecall
  > text:
  >     .ascii "a\t\"b\\\n"
  >     .byte 0x7f, 0x80, 0xff, 0x1f, 32, 126, 13, 0, 65
  >     .half 0x4505
  > END
  $ bspemu debug text.s --format asm --memory 4096 --interactive <<'END'
  > words 0 0 4
  > words 0 0 5
  > words 0 1 2
  > words 0 4088 5
  > words 0 4095 1
  > words 0 8 0
  > text 0 8 64
  > text 0 8 3
  > text 0 23 1
  > text 0 4095 2
  > text 0 8 0
  > list 0 0 2
  > list 0 24 2
  > list 0 4094 4294967295
  > list 0 4095 2
  > list 0 0 0
  > words 0 4096 0
  > text 0 4096 1
  > list 0 4294967295 1
  > words 1 4096 1
  > END
  00000000: 00100893 00000073 62220961 807f0a5c
  00000000: 00100893 00000073 62220961 807f0a5c
  00000010: 7e201fff
  00000001: 73001008 61000000
  00000ff8: 00000000 00000000
  "a\t\"b\\\n\x7f\x80\xff\x1f ~\r"
  "a\t\""
  "\x05"
  ""
  ""
  00000000: 00100893  addi x17,x0,1
  00000004: 00000073  ecall
  00000018: 0045      addi x0,x0,17 # compressed
  0000001a: 0000      .half 0x0000
  00000ffe: 0000      .half 0x0000
  00000fff: 00        .byte 0x00
  refused: BadRange
  refused: BadRange
  refused: BadRange
  refused: BadRank
