  $ cat > text.s <<'END'
  >
  >
  > li a0,4294967296
  > END
  $ bspemu run text.s --format asm
  bspemu: line 3: OutOfRange (stderr)
  [1]
