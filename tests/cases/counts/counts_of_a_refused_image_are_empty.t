  $ cat > text.s <<'END'
  > nop nop
  > END
  $ cat > counts.csv <<'END'
  > old
  > END
  $ bspemu run text.s --format asm --counts counts.csv
  bspemu: line 1: BadOperand (stderr)
  [1]
  $ wc -c < counts.csv
  0
