  $ cat > text.s <<'END'
  > nop
  > .ascii "abc
  > END
  $ bspemu run text.s --format asm
  bspemu: line 2: BadToken (stderr)
  [1]
