  $ bspemu debug examples/ranks.raw <<'END'
  > costs
  > END
  bspemu: image refused: NotElf (stderr)
  [1]
