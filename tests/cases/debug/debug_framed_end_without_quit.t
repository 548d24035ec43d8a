  $ bspemu debug examples/ranks.raw --format raw --nodes 3 --framed < /dev/null
  $ printf 'phase\nwhere 1' | bspemu debug examples/ranks.raw --format raw --nodes 3 --framed
  done 1
  moved 30
  done 1
  rank 1 pc 00000028 superstep 0 state ended
  $ printf 'phase\n  ' | bspemu debug examples/ranks.raw --format raw --nodes 3 --framed
  done 1
  moved 30
  done 0
