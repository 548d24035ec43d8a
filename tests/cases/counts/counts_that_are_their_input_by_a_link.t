  $ cat > written <<'END'
  > bytes
  > END
  $ ln written other
  $ bspemu run examples/one_put.s --format asm --input written --counts other
  bspemu: cannot open other (stderr)
  [6]
  $ cat written
  bytes
