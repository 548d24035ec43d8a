  $ in-turns bspemu debug examples/ranks.raw --format raw --nodes 3 --framed <<'END'
  > 2 break 1 8
  > 2 go
  > 1 
  > 2 where 1
  > 2 what
  > 0 quit
  > END
  << break 1 8
  done 1
  ok
  << go
  done 1
  stopped at rank 1 pc 00000008
  << 
  done 0
  << where 1
  done 1
  rank 1 pc 00000008 superstep 0 state running
  << what
  refused 1
  refused: BadCommand
  << quit
