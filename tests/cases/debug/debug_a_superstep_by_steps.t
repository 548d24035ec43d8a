  $ bspemu debug programs/one_sync.s --format asm --limit 4 <<'END'
  > step 0 2
  > turn
  > step 0 2
  > turn
  > turn
  > costs
  > END
  moved 2
  turned
  moved 2
  ended
  refused: Over
  superstep 0: w 2 h 0 m 0 turned
  superstep 1: w 2 h 0 m 0 last
  total 4
  $ bspemu debug programs/one_sync.s --format asm --limit 2 <<'END'
  > step 0 2
  > turn
  > step 0 2
  > turn
  > turn
  > costs
  > END
  moved 2
  turned
  moved 0
  rank 0 stopped: exhausted
  refused: Over
  superstep 0: w 2 h 0 m 0 turned
  superstep 1: w 0 h 0 m 0 last
  total 2
