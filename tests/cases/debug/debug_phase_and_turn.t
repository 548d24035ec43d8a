  $ bspemu debug examples/ranks.raw --format raw --nodes 3 --ledger 1 <<'END'
  > turn
  > phase
  > phase
  > go
  > phase
  > turn
  > go
  > costs
  > END
  not turned
  moved 30
  moved 0
  ended
  refused: Over
  refused: Over
  refused: Over
  superstep 0: w 10 h 0 last
  total 10
