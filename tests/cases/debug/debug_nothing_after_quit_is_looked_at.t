  $ bspemu debug examples/ranks.raw --format raw --nodes 3 <<'END'
  > phase
  > quit
  > turn
  > END
  moved 30
