  $ at-a-terminal "$REPO"/bspemu run programs/one_of_two_ranks_ends.s --format asm --nodes 2 --report --ledger 1
  superstep 0: w 6 h 0 last
  total 6
  desync: rank 0 ended, rank 1 synced
  [4]
