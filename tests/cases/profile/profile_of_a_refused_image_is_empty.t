  $ cat > text.s <<'END'
  > nop nop
  > END
  $ cat > profile.csv <<'END'
  > old
  > END
  $ bspemu run text.s --format asm --profile profile.csv
  bspemu: line 1: BadOperand (stderr)
  [1]
  $ wc -c < profile.csv
  0
