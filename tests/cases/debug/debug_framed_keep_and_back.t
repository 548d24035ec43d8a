  $ bspemu debug examples/ranks.raw --format raw --nodes 3 --framed <<'END'
  > kept
  > keep
  > step 1 4
  > keep
  > go
  > kept
  > back 1
  > where 1
  > bytes 1 256 1
  > output 0
  > costs 0
  > forget 0
  > back 0
  > forget 0
  > keep
  > kept
  > quit
  > END
  done 0
  done 1
  kept 0
  done 1
  moved 4
  done 1
  kept 1
  done 1
  ended
  done 2
  kept 0 superstep 0, ranks 0 to 2 pc 00000000 state running
  kept 1 superstep 0, rank 0 pc 00000000 state running, rank 1 pc 00000010 state running, rank 2 pc 00000000 state running
  done 1
  ok
  done 1
  rank 1 pc 00000010 superstep 0 state running
  done 1
  31
  done 1
  
  done 1
  total 0
  done 1
  ok
  refused 1
  refused: NoSuchKept
  refused 1
  refused: NoSuchKept
  done 1
  kept 2
  done 2
  kept 1 superstep 0, rank 0 pc 00000000 state running, rank 1 pc 00000010 state running, rank 2 pc 00000000 state running
  kept 2 superstep 0, rank 0 pc 00000000 state running, rank 1 pc 00000010 state running, rank 2 pc 00000000 state running
