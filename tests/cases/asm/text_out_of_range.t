  $ cat > text.s <<'END'
  > addi x1,x0,2048
  > END
  $ bspemu run text.s --format asm
  bspemu: line 1: OutOfRange (stderr)
  [1]
