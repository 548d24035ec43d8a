  $ bspemu debug programs/one_sync.s --format asm --limit 4 <<'END'
  > break superstep 1
  > break 0 4
  > go
  > go
  > step 0 1
  > go
  > costs
  > END
  ok
  ok
  stopped at rank 0 pc 00000004
  stopped at superstep 1
  moved 1
  ended
  superstep 0: w 2 h 0 m 0 turned
  superstep 1: w 2 h 0 m 0 last
  total 4
  $ bspemu debug programs/one_sync.s --format asm --limit 2 <<'END'
  > break superstep 1
  > break 0 4
  > go
  > go
  > step 0 1
  > go
  > costs
  > END
  ok
  ok
  stopped at rank 0 pc 00000004
  stopped at superstep 1
  moved 0
  rank 0 stopped: exhausted
  superstep 0: w 2 h 0 m 0 turned
  superstep 1: w 0 h 0 m 0 last
  total 2
