  $ cat > text.s <<'END'
  > start: beq x0,x0,next
  > li a0,-2049
  > next: ecall
  > END
  $ bspemu asm text.s /dev/stdout > whole
  $ od -A n -t x1 -v whole
   7f 45 4c 46 01 01 01 00 00 00 00 00 00 00 00 00
   02 00 f3 00 01 00 00 00 00 00 00 00 34 00 00 00
   00 00 00 00 00 00 00 00 34 00 20 00 01 00 00 00
   00 00 00 00 01 00 00 00 54 00 00 00 00 00 00 00
   00 00 00 00 10 00 00 00 10 00 00 00 07 00 00 00
   01 00 00 00 63 06 00 00 37 f5 ff ff 13 05 f5 7f
   73 00 00 00
  $ for room in $(seq 0 $(($(wc -c < whole) - 1))); do
  >     with-room "$room" bspemu asm text.s /dev/stdout > cut
  >     echo "status $?"
  >     head -c "$room" whole | cmp - cut
  > done 2>&1 | paste -d - - | sort | uniq -c
      100 bspemu: write failed
      100 status 6
