  $ cat > text.s <<'END'
  > nop
  > END
  $ bspemu asm text.s none/saved.elf
  bspemu: cannot open none/saved.elf (stderr)
  [6]
