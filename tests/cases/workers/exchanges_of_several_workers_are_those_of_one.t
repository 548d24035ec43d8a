  $ bspemu run examples/total_exchange.s --format asm --nodes 5 --workers 2 --report --ledger 1
  0: 0 1000 2000 3000 4000
  1: 1 1001 2001 3001 4001
  2: 2 1002 2002 3002 4002
  3: 3 1003 2003 3003 4003
  4: 4 1004 2004 3004 4004
  superstep 0: w 46 h 0 turned
  superstep 1: w 36 h 16 turned
  superstep 2: w 229 h 0 last
  total 327
  ended
  $ bspemu run examples/prefix_sum_get.s --format asm --nodes 7 --workers 3 --report --ledger 1
  1
  3
  6
  10
  15
  21
  28
  superstep 0: w 18 h 0 turned
  superstep 1: w 12 h 4 turned
  superstep 2: w 17 h 4 turned
  superstep 3: w 17 h 4 turned
  superstep 4: w 37 h 0 last
  total 113
  ended
  $ bspemu run examples/messages.s --format asm --nodes 5 --workers 64 --report --ledger 1
  0: 2 messages of 9 bytes: 4 says hello
  1: 2 messages of 9 bytes: 0 says hello
  2: 2 messages of 16 bytes: 1 says good morning
  3: 2 messages of 9 bytes: 2 says hello
  4: 2 messages of 16 bytes: 3 says good morning
  superstep 0: w 14 h 0 turned
  superstep 1: w 28 h 24 turned
  superstep 2: w 173 h 0 last
  total 239
  ended
  $ bspemu run examples/broadcast2.s --format asm --nodes 5 --workers 2 --report --ledger 1
  0 right
  1 right
  2 right
  3 right
  4 right
  superstep 0: w 278 h 0 turned
  superstep 1: w 54 h 204 turned
  superstep 2: w 39 h 208 turned
  superstep 3: w 351 h 0 last
  total 1134
  ended
