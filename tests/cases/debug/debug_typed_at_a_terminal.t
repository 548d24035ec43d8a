  $ in-turns --typed bspemu debug examples/ranks.raw --format raw --nodes 3 <<'END'
  > 1 break 1 8
  > 1 go
  > 0 quit
  > END
  << break 1 8
  ok
  << go
  stopped at rank 1 pc 00000008
  << quit
