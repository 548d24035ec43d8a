  $ cat > text.s <<'END'
  > nop nop
  > END
  $ bspemu run text.s --format asm --input .
  bspemu: read failed (stderr)
  [6]
