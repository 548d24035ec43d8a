  $ bspemu debug examples/ranks.raw --format raw --nodes 3 >&- <<'END'
  >
  > phase
  > turn
  > END
  bspemu: write failed (stderr)
  [6]
