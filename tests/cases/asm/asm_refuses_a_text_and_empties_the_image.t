  $ cat > text.s <<'END'
  > nop nop
  > END
  $ bspemu asm text.s saved.elf
  bspemu: line 1: BadOperand (stderr)
  [1]
  $ wc -c < saved.elf
  0
