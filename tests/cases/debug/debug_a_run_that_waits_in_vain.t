  $ bspemu debug programs/one_of_three_ranks_ends.s --format asm --memory 4096 --nodes 3 --ledger 1 <<'END'
  > phase
  > turn
  > turn
  > costs
  > END
  moved 17
  desync: rank 0 ended, rank 1 synced
  refused: Over
  superstep 0: w 6 h 0 last
  total 6
