  $ bspemu debug examples/one_put.s --format asm --nodes 2 --g 2 --l 10 <<'END'
  > costs
  > phase
  > costs
  > turn
  > costs
  > go
  > costs
  > END
  total 0
  moved 12
  total 0
  turned
  superstep 0: w 6 h 0 m 0 turned
  total 16
  ended
  superstep 0: w 6 h 0 m 0 turned
  superstep 1: w 12 h 4 m 0 turned
  superstep 2: w 2 h 0 m 0 last
  total 58
