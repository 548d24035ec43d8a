  $ bspemu run examples/total_exchange.s --format asm --nodes 4 --report --ledger 1
  0: 0 1000 2000 3000
  1: 1 1001 2001 3001
  2: 2 1002 2002 3002
  3: 3 1003 2003 3003
  superstep 0: w 41 h 0 turned
  superstep 1: w 31 h 12 turned
  superstep 2: w 186 h 0 last
  total 270
  ended
  $ bspemu run examples/total_exchange.s --format asm --nodes 4 --report --g 4 --l 1000 --ledger 1
  0: 0 1000 2000 3000
  1: 1 1001 2001 3001
  2: 2 1002 2002 3002
  3: 3 1003 2003 3003
  superstep 0: w 41 h 0 turned
  superstep 1: w 31 h 12 turned
  superstep 2: w 186 h 0 last
  total 3306
  ended
  $ bspemu run examples/total_exchange.s --format asm --nodes 1 --report --ledger 1
  0: 0
  superstep 0: w 26 h 0 turned
  superstep 1: w 16 h 0 turned
  superstep 2: w 57 h 0 last
  total 99
  ended
  $ bspemu run examples/total_exchange.s --format asm --nodes 7 --report --ledger 1
  0: 0 1000 2000 3000 4000 5000 6000
  1: 1 1001 2001 3001 4001 5001 6001
  2: 2 1002 2002 3002 4002 5002 6002
  3: 3 1003 2003 3003 4003 5003 6003
  4: 4 1004 2004 3004 4004 5004 6004
  5: 5 1005 2005 3005 4005 5005 6005
  6: 6 1006 2006 3006 4006 5006 6006
  superstep 0: w 56 h 0 turned
  superstep 1: w 46 h 24 turned
  superstep 2: w 315 h 0 last
  total 441
  ended
