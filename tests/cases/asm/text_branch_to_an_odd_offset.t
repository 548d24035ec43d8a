  $ cat > text.s <<'END'
  > beq x0,x0,2
  > beq x0,x0,7
  > END
  $ bspemu run text.s --format asm
  bspemu: line 2: OutOfRange (stderr)
  [1]
