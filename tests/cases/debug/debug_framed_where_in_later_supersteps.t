  $ bspemu debug examples/messages.s --format asm --nodes 2 --framed <<'END'
  > break superstep 1
  > go
  > where 1
  > phase
  > where 0
  > break superstep 2
  > go
  > where 0
  > END
  done 1
  ok
  done 1
  stopped at superstep 1
  done 1
  rank 1 pc 00000038 superstep 1 state running
  done 1
  moved 54
  done 1
  rank 0 pc 00000058 superstep 1 state synced
  done 1
  ok
  done 1
  stopped at superstep 2
  done 1
  rank 0 pc 00000058 superstep 2 state running
