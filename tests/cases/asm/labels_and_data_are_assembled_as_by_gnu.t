  $ cat > text.s <<'END'
  > # Labels forward and back, the short forms, and data, where both assemblers write the same bytes.
  > first:  nop
  >         mv   a0, t6
  >         j    later
  >         beqz a0, first
  >         bnez t1, later
  > back:   ret
  >         jr   t0
  >         li   a0, -2048
  >         li   a1, 2047
  >         li   a2, 2049
  >         li   a3, -2049
  >         li   a4, 0x7FFFFFFF
  >         li   a5, 0x12345FFF
  >         li   a6, 4294967295
  >         li   a7, -2147483647
  > later:  j    back
  >         .word 1, -1, 0xFFFFFFFF, later, later + 4, first - 8, back+0x10
  >         .half 1, -32768, 65535
  >         .byte 0, -128, 255
  >         .ascii "a \"quoted\" \\ line\n\t\0"
  >         .space 5
  >         .align 3
  > words:  .word words
  >         .align 0
  >         .byte 1
  >         .align 2
  > END
  $ bspemu asm text.s saved.elf
  $ od -An -v -tx1 saved.elf
   7f 45 4c 46 01 01 01 00 00 00 00 00 00 00 00 00
   02 00 f3 00 01 00 00 00 00 00 00 00 34 00 00 00
   00 00 00 00 00 00 00 00 34 00 20 00 01 00 00 00
   00 00 00 00 01 00 00 00 54 00 00 00 00 00 00 00
   00 00 00 00 a0 00 00 00 a0 00 00 00 07 00 00 00
   01 00 00 00 13 00 00 00 13 85 0f 00 6f 00 80 04
   e3 0a 05 fe 63 10 03 04 67 80 00 00 67 80 02 00
   13 05 00 80 93 05 f0 7f 37 16 00 00 13 06 16 80
   b7 f6 ff ff 93 86 f6 7f 37 07 00 80 13 07 f7 ff
   b7 67 34 12 93 87 f7 ff 13 08 f0 ff b7 08 00 80
   93 88 18 00 6f f0 5f fc 01 00 00 00 ff ff ff ff
   ff ff ff ff 50 00 00 00 54 00 00 00 f8 ff ff ff
   24 00 00 00 01 00 00 80 ff ff 00 80 ff 61 20 22
   71 75 6f 74 65 64 22 20 5c 20 6c 69 6e 65 0a 09
   00 00 00 00 00 00 00 00 00 00 00 00 98 00 00 00
   01 00 00 00
