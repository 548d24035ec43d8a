  $ bspemu run examples/c/jacobi.elf --float --nodes 4 --report --ledger 1
  cell 0: 82380/1000
  cell 1: 66362/1000
  cell 2: 50344/1000
  cell 3: 38331/1000
  cell 4: 26318/1000
  cell 5: 18925/1000
  cell 6: 11532/1000
  cell 7: 7835/1000
  cell 8: 4139/1000
  cell 9: 2660/1000
  cell 10: 1182/1000
  cell 11: 720/1000
  cell 12: 258/1000
  cell 13: 149/1000
  cell 14: 40/1000
  cell 15: 22/1000
  cell 16: 4/1000
  cell 17: 2/1000
  cell 18: 0/1000
  cell 19: 0/1000
  cell 20: 0/1000
  cell 21: 0/1000
  cell 22: 0/1000
  cell 23: 0/1000
  superstep 0: w 254 h 0 turned
  superstep 1: w 117 h 16 turned
  superstep 2: w 255 h 16 turned
  superstep 3: w 255 h 16 turned
  superstep 4: w 255 h 16 turned
  superstep 5: w 255 h 16 turned
  superstep 6: w 255 h 16 turned
  superstep 7: w 255 h 16 turned
  superstep 8: w 255 h 16 turned
  superstep 9: w 255 h 16 turned
  superstep 10: w 255 h 16 turned
  superstep 11: w 255 h 16 turned
  superstep 12: w 255 h 16 turned
  superstep 13: w 255 h 16 turned
  superstep 14: w 255 h 16 turned
  superstep 15: w 255 h 16 turned
  superstep 16: w 255 h 16 turned
  superstep 17: w 255 h 16 turned
  superstep 18: w 255 h 16 turned
  superstep 19: w 255 h 16 turned
  superstep 20: w 255 h 16 turned
  superstep 21: w 6817 h 0 last
  total 12353
  ended
