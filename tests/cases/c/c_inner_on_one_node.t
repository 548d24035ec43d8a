  $ bspemu run examples/c/inner.elf --float --report --ledger 1
  the inner product of 1000 elements
  rank 0: 166166000
  done
  superstep 0: w 1682 h 0 turned
  superstep 1: w 7094 h 8 turned
  superstep 2: w 1468 h 0 last
  total 10252
  ended
