  $ cat > text.s <<'END'
  > nop nop
  > END
  $ bspemu run text.s --format asm --live --report
  bspemu: line 1: BadOperand (stderr)
  [1]
