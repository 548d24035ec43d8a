  $ bspemu debug examples/ranks.raw --format raw --nodes 3 --ledger 1 <<'END'
  > break 1 8
  > go
  > step 0 1
  > step 3 1
  > turn
  > go
  > costs
  > output
  > step 3 1
  > step 0 1
  > stop
  > clear 1 8
  > clear 1 8
  > quit
  > END
  ok
  stopped at rank 1 pc 00000008
  moved 0
  refused: BadRank
  not turned
  ended
  superstep 0: w 10 h 0 last
  total 10
  012
  refused: BadRank
  refused: Over
  refused: BadCommand
  ok
  refused: NoSuchBreak
