  $ bspemu debug examples/ranks.elf --input examples <<'END'
  > costs
  > END
  bspemu: read failed (stderr)
  [6]
