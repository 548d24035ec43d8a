  $ cat > written <<'END'
  > nop
  > start: ecall
  > .entry start
  > END
  $ ln -s written text.s
  $ bspemu asm text.s written
  bspemu: cannot open written (stderr)
  [6]
  $ cat written
  nop
  start: ecall
  .entry start
