  $ cat > text.s <<'END'
  > j nowhere
  > END
  $ bspemu run text.s --format asm
  bspemu: line 1: UndefinedLabel (stderr)
  [1]
