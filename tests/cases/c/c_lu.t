  $ bspemu run examples/c/lu.elf --float --nodes 4 --report --ledger 1
  column 0, rank 0: pivot -9000/1000 of row 0
  column 1, rank 1: pivot 9000/1000 of row 1
  column 2, rank 2: pivot 12136/1000 of row 10
  column 3, rank 3: pivot -12042/1000 of row 4
  column 4, rank 0: pivot 15371/1000 of row 6
  column 5, rank 1: pivot 14778/1000 of row 6
  column 6, rank 2: pivot -21278/1000 of row 9
  column 7, rank 3: pivot -8872/1000 of row 11
  column 8, rank 0: pivot 13902/1000 of row 8
  column 9, rank 1: pivot 3800/1000 of row 11
  column 10, rank 2: pivot -3167/1000 of row 10
  column 11, rank 3: pivot -3800/1000 of row 11
  superstep 0: w 818 h 0 turned
  superstep 1: w 2645 h 276 turned
  superstep 2: w 2993 h 252 turned
  superstep 3: w 3006 h 228 turned
  superstep 4: w 2945 h 204 turned
  superstep 5: w 2809 h 180 turned
  superstep 6: w 2771 h 156 turned
  superstep 7: w 2745 h 132 turned
  superstep 8: w 2696 h 108 turned
  superstep 9: w 2591 h 84 turned
  superstep 10: w 2552 h 60 turned
  superstep 11: w 2565 h 36 turned
  superstep 12: w 2513 h 12 turned
  superstep 13: w 215 h 0 last
  total 35592
  ended
