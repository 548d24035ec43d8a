  $ bspemu run programs/one_rank_at_fault.s --format asm --nodes 3 --limit 1000 --report --ledger 1
  aasuperstep 0: w 1000 h 0 last
  total 1000
  rank 0 stopped: exhausted
  [3]
