Kept states stay kept, numbers are not given again, and one can go forward as well as back.
  $ bspemu debug examples/ranks.raw --format raw --nodes 3 --interactive <<'END'
  > keep
  > step 1 4
  > bytes 1 256 1
  > keep
  > phase
  > turn
  > output
  > costs
  > keep
  > kept
  > back 1
  > where 1
  > bytes 1 256 1
  > output
  > costs
  > turn
  > back 0
  > bytes 1 256 1
  > where
  > go
  > back 2
  > step 0 1
  > output
  > forget 1
  > back 1
  > forget 1
  > keep
  > kept
  > back 9
  > back
  > keep 1
  > kept 0
  > forget
  > back -1
  > quit
  > END
  kept 0
  moved 4
  31
  kept 1
  moved 26
  ended
  012
  superstep 0: w 10 h 0 m 0 last
  total 10
  kept 2
  kept 0 superstep 0, ranks 0 to 2 pc 00000000 state running
  kept 1 superstep 0, rank 0 pc 00000000 state running, rank 1 pc 00000010 state running, rank 2 pc 00000000 state running
  kept 2 superstep 0, ranks 0 to 2 pc 00000028 state ended
  ok
  rank 1 pc 00000010 superstep 0 state running
  31
  
  total 0
  not turned
  ok
  00
  rank 0 pc 00000000 superstep 0 state running
  rank 1 pc 00000000 superstep 0 state running
  rank 2 pc 00000000 superstep 0 state running
  ended
  ok
  refused: Over
  012
  ok
  refused: NoSuchKept
  refused: NoSuchKept
  kept 3
  kept 0 superstep 0, ranks 0 to 2 pc 00000000 state running
  kept 2 superstep 0, ranks 0 to 2 pc 00000028 state ended
  kept 3 superstep 0, ranks 0 to 2 pc 00000028 state ended
  refused: NoSuchKept
  refused: BadCommand: the line is back N
  refused: BadCommand: the line is keep
  refused: BadCommand: the line is kept
  refused: BadCommand: the line is forget N
  refused: BadCommand: the line is back N
