  $ bspemu debug examples/ranks.raw --format raw --nodes 3 --framed <<'END'
  > break 1 8
  > break 2 0x28
  > go
  > clear 1 8
  > go
  > step 2 1
  > go
  > END
  done 1
  ok
  done 1
  ok
  done 1
  stopped at rank 1 pc 00000008
  done 1
  ok
  done 1
  ended
  refused 1
  refused: Over
  refused 1
  refused: Over
