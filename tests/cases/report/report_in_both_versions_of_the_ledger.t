  $ bspemu run examples/ranks.raw --format raw --nodes 3 --report
  012superstep 0: w 10 h 0 m 0 last
  total 10
  ended
  $ bspemu run examples/ranks.raw --format raw --nodes 3 --report --ledger 2
  012superstep 0: w 10 h 0 m 0 last
  total 10
  ended
  $ bspemu run examples/ranks.raw --format raw --nodes 3 --report --ledger 1
  012superstep 0: w 10 h 0 last
  total 10
  ended
