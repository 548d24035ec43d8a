  $ bspemu debug examples/one_put.s --format asm --nodes 2 <<'END'
  > break superstep 1
  > phase
  > turn
  > go
  > END
  ok
  moved 12
  turned
  ended
