  $ bspemu debug examples/ranks.raw --format raw --nodes 3 --interactive <<'END'
  > break 1 8
  > keep
  > go
  > back 0
  > go
  > keep
  > clear 1 8
  > back 0
  > break 2 0xc
  > go
  > back 1
  > where
  > go
  > go
  > clear 1 8
  > clear 2 12
  > quit
  > END
  ok
  kept 0
  stopped at rank 1 pc 00000008
  ok
  stopped at rank 1 pc 00000008
  kept 1
  ok
  ok
  ok
  stopped at rank 2 pc 0000000c
  ok
  rank 0 pc 00000028 superstep 0 state ended
  rank 1 pc 00000008 superstep 0 state running
  rank 2 pc 00000000 superstep 0 state running
  stopped at rank 2 pc 0000000c
  ended
  refused: NoSuchBreak
  ok
