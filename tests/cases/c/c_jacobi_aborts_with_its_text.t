  $ bspemu run examples/c/jacobi.elf --float --nodes 25 --report --ledger 1
  24 cells are too few for 25 ranks
  24 cells are too few for 25 ranks
  24 cells are too few for 25 ranks
  24 cells are too few for 25 ranks
  24 cells are too few for 25 ranks
  24 cells are too few for 25 ranks
  24 cells are too few for 25 ranks
  24 cells are too few for 25 ranks
  24 cells are too few for 25 ranks
  24 cells are too few for 25 ranks
  24 cells are too few for 25 ranks
  24 cells are too few for 25 ranks
  24 cells are too few for 25 ranks
  24 cells are too few for 25 ranks
  24 cells are too few for 25 ranks
  24 cells are too few for 25 ranks
  24 cells are too few for 25 ranks
  24 cells are too few for 25 ranks
  24 cells are too few for 25 ranks
  24 cells are too few for 25 ranks
  24 cells are too few for 25 ranks
  24 cells are too few for 25 ranks
  24 cells are too few for 25 ranks
  24 cells are too few for 25 ranks
  24 cells are too few for 25 ranks
  superstep 0: w 1958 h 0 last
  total 1958
  rank 0 stopped: aborted
  [2]
