  $ cat > written <<'END'
  > nop
  > start: ecall
  > .entry start
  > END
  $ bspemu asm written written
  bspemu: cannot open written (stderr)
  [6]
  $ cat written
  nop
  start: ecall
  .entry start
