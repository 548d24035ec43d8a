  $ bspemu run examples/c/inner.elf --float --nodes 4 --report --ledger 1
  the inner product of 1000 elements
  rank 0: 166166000
  done
  rank 1: 166166000
  rank 2: 166166000
  rank 3: 166166000
  superstep 0: w 1682 h 0 turned
  superstep 1: w 1889 h 32 turned
  superstep 2: w 1480 h 0 last
  total 5083
  ended
