  $ bspemu run examples/c/samplesort.elf --float --nodes 3 --workers 3 --report --ledger 1
  superstep 0: w 648 h 0 turned
  superstep 1: w 448 h 0 turned
  superstep 2: w 414 h 0 last
  total 1510
  ended
