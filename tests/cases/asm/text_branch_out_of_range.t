  $ cat > text.s <<'END'
  > beq x0,x0,far
  > .space 4092
  > far:
  > END
  $ bspemu run text.s --format asm
  bspemu: line 1: OutOfRange (stderr)
  [1]
