  $ cat > text.s <<'END'
  > a:
  > nop
  > a:
  > END
  $ bspemu run text.s --format asm
  bspemu: line 3: DuplicateLabel (stderr)
  [1]
