  $ cat > text.s <<'END'
  > .space 16777216
  > nop
  > END
  $ bspemu run text.s --format asm
  bspemu: line 2: TooLarge (stderr)
  [1]
