  $ cat > text.s <<'END'
  > start: beq x0,x0,next
  > li a0,-2049
  > next: ecall
  > .byte 7
  > END
  $ bspemu list text.s --format asm
  00000000: 00000663  beq x0,x0,0x0000000c
  00000004: fffff537  lui x10,0xfffff
  00000008: 7ff50513  addi x10,x10,2047
  0000000c: 00000073  ecall
  00000010: 07        .byte 0x07
  $ bspemu list text.s --format asm > whole
  $ for room in $(seq 0 $(($(wc -c < whole) - 1))); do
  >     with-room "$room" bspemu list text.s --format asm > cut
  >     echo "status $?"
  >     head -c "$room" whole | cmp - cut
  > done 2>&1 | paste -d - - | sort | uniq -c
      172 bspemu: write failed
      172 status 6
