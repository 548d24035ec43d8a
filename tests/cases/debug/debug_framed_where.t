  $ bspemu debug examples/ranks.raw --format raw --nodes 3 --framed <<'END'
  > where
  > break 1 8
  > go
  > where 1
  > where 0x2
  > where
  > where 3
  > where 9
  > go
  > where 2
  > END
  done 3
  rank 0 pc 00000000 superstep 0 state running
  rank 1 pc 00000000 superstep 0 state running
  rank 2 pc 00000000 superstep 0 state running
  done 1
  ok
  done 1
  stopped at rank 1 pc 00000008
  done 1
  rank 1 pc 00000008 superstep 0 state running
  done 1
  rank 2 pc 00000000 superstep 0 state running
  done 3
  rank 0 pc 00000028 superstep 0 state ended
  rank 1 pc 00000008 superstep 0 state running
  rank 2 pc 00000000 superstep 0 state running
  refused 1
  refused: BadRank
  refused 1
  refused: BadRank
  done 1
  ended
  done 1
  rank 2 pc 00000028 superstep 0 state ended
