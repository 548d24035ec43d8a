  $ bspemu run examples/c/lu.elf --float --nodes 16 --workers 3 --report --ledger 1
  column 0, rank 0: pivot -9000/1000 of row 0
  column 1, rank 1: pivot 9000/1000 of row 1
  column 2, rank 2: pivot 12136/1000 of row 10
  column 3, rank 3: pivot -12042/1000 of row 4
  column 4, rank 4: pivot 15371/1000 of row 6
  column 5, rank 5: pivot 14778/1000 of row 6
  column 6, rank 6: pivot -21278/1000 of row 9
  column 7, rank 7: pivot -8872/1000 of row 11
  column 8, rank 8: pivot 13902/1000 of row 8
  column 9, rank 9: pivot 3800/1000 of row 11
  column 10, rank 10: pivot -3167/1000 of row 10
  column 11, rank 11: pivot -3800/1000 of row 11
  superstep 0: w 406 h 0 turned
  superstep 1: w 3029 h 1380 turned
  superstep 2: w 3125 h 1260 turned
  superstep 3: w 3158 h 1140 turned
  superstep 4: w 3117 h 1020 turned
  superstep 5: w 3051 h 900 turned
  superstep 6: w 3018 h 780 turned
  superstep 7: w 3007 h 660 turned
  superstep 8: w 2973 h 540 turned
  superstep 9: w 2913 h 420 turned
  superstep 10: w 2874 h 300 turned
  superstep 11: w 2931 h 180 turned
  superstep 12: w 2889 h 60 turned
  superstep 13: w 183 h 0 last
  total 45314
  ended
