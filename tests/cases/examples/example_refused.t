  $ bspemu run examples/refused.s --format asm --nodes 4 --report --g 4 --l 1000 --ledger 1
  0 puts
  1 puts
  2 puts
  3 puts
  superstep 0: w 17 h 0 turned
  superstep 1: w 39 h 0 last
  total 2056
  refused: OutsideArea rank 3 request 1
  [4]
