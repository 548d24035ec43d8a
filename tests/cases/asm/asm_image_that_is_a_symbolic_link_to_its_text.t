  $ cat > written <<'END'
  > nop
  > start: ecall
  > .entry start
  > END
  $ ln -s written image
  $ bspemu asm written image
  bspemu: cannot open image (stderr)
  [6]
  $ cat written
  nop
  start: ecall
  .entry start
