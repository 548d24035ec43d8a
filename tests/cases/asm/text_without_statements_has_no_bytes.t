  $ cat > text.s <<'END'
  > # nothing
  >
  > END
  $ bspemu asm text.s saved.elf
  $ od -An -v -tx1 saved.elf
   7f 45 4c 46 01 01 01 00 00 00 00 00 00 00 00 00
   02 00 f3 00 01 00 00 00 00 00 00 00 34 00 00 00
   00 00 00 00 00 00 00 00 34 00 20 00 00 00 00 00
   00 00 00 00
