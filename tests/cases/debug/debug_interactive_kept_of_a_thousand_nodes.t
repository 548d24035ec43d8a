  $ bspemu debug examples/ranks.raw --format raw --nodes 1000 --interactive <<'END'
  > keep
  > step 999 3
  > step 500 1
  > step 501 1
  > keep
  > phase
  > keep
  > kept
  > quit
  > END
  kept 0
  moved 3
  moved 1
  moved 1
  kept 1
  moved 9995
  kept 2
  kept 0 superstep 0, ranks 0 to 999 pc 00000000 state running
  kept 1 superstep 0, ranks 0 to 499 pc 00000000 state running, ranks 500 to 501 pc 00000004 state running, ranks 502 to 998 pc 00000000 state running, rank 999 pc 0000000c state running
  kept 2 superstep 0, ranks 0 to 999 pc 00000028 state ended
