  $ bspemu run examples/ranks.raw --format raw --nodes 3 --limit 9 --report --ledger 1
  012superstep 0: w 9 h 0 last
  total 9
  rank 0 stopped: exhausted
  [3]
