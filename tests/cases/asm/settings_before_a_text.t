  $ cat > text.s <<'END'
  > nop nop
  > END
  $ bspemu run text.s --format asm --nodes 0
  bspemu: settings refused: BadNodes (stderr)
  [1]
