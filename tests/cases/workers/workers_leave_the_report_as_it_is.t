  $ bspemu run examples/ranks.raw --format raw --nodes 3 --workers 1 --report --ledger 1
  012superstep 0: w 10 h 0 last
  total 10
  ended
  $ bspemu run examples/ranks.raw --format raw --nodes 3 --workers 2 --report --ledger 1
  012superstep 0: w 10 h 0 last
  total 10
  ended
  $ bspemu run examples/ranks.raw --format raw --nodes 3 --workers 3 --report --ledger 1
  012superstep 0: w 10 h 0 last
  total 10
  ended
  $ bspemu run examples/ranks.raw --format raw --nodes 3 --workers 64 --report --ledger 1
  012superstep 0: w 10 h 0 last
  total 10
  ended
