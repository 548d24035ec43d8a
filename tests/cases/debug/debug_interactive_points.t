Points are told by rank and address, and behind them those of supersteps, whenever they were set.

  $ bspemu debug examples/ranks.raw --format raw --nodes 3 --interactive <<'END'
  > points
  > break superstep 18446744073709551615
  > break 2 16
  > break superstep 0
  > break 0 4294967295
  > break 0 8
  > break 2 16
  > break 1 0x10
  > points
  > clear 0 8
  > keep
  > clear superstep 0
  > back 0
  > points
  > END
  ok
  ok
  ok
  ok
  ok
  ok
  ok
  rank 0 pc 00000008
  rank 0 pc ffffffff
  rank 1 pc 00000010
  rank 2 pc 00000010
  superstep 0
  superstep 18446744073709551615
  ok
  kept 0
  ok
  ok
  rank 0 pc ffffffff
  rank 1 pc 00000010
  rank 2 pc 00000010
  superstep 18446744073709551615
