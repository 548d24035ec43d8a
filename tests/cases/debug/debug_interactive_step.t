A step alone is that of the lowest rank that runs, and says where that rank is then; where none runs, none is made.

  $ bspemu debug examples/ranks.raw --format raw --nodes 3 --interactive <<'END'
  > step
  > step 2
  > step 0 8
  > step
  > step
  > step 1
  > phase
  > step
  > step 3
  > turn
  > step
  > step 0
  > END
  moved 1
  rank 0 pc 00000004 superstep 0 state running
  moved 1
  moved 8
  moved 1
  rank 0 pc 00000028 superstep 0 state ended
  moved 1
  rank 1 pc 00000004 superstep 0 state running
  moved 1
  moved 17
  moved 0
  rank 0 pc 00000028 superstep 0 state ended
  refused: BadRank
  ended
  refused: Over
  refused: Over
