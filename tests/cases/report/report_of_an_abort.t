  $ bspemu run examples/give_up.raw --format raw --nodes 3 --report --ledger 1
  stopsuperstep 0: w 11 h 0 last
  total 11
  rank 1 stopped: aborted
  [2]
