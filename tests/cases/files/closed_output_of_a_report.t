  $ cat > program.s <<'END'
  > # Nothing is written but the report.
  >     li    a7, 1             # end()
  >     ecall
  > END
  $ bspemu run program.s --format asm --report >&-
  bspemu: write failed (stderr)
  [6]
