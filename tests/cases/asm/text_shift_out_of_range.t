  $ cat > text.s <<'END'
  > slli x1,x1,31
  > slli x1,x1,32
  > END
  $ bspemu run text.s --format asm
  bspemu: line 2: OutOfRange (stderr)
  [1]
