  $ bspemu run examples/c/psum.elf --float --nodes 4 --report --ledger 1
  rank 0: 0 1 3 6 10 15 21 28
  rank 1: 36 45 45 46 48 51 55 60
  rank 2: 66 73 81 90 90 91 93 96
  rank 3: 100 105 111 118 126 135 135 136
  superstep 0: w 233 h 0 turned
  superstep 1: w 89 h 4 turned
  superstep 2: w 93 h 4 turned
  superstep 3: w 3994 h 0 last
  total 4417
  ended
