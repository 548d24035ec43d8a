  $ cat > text.s <<'END'
  > nop nop
  > END
  $ bspemu run text.s --format asm
  bspemu: line 1: BadOperand (stderr)
  [1]
