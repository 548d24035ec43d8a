  $ bspemu run examples/broadcast.s --format asm --nodes 4 --report
  0 right
  1 right
  2 right
  3 right
  superstep 0: w 275 h 0 m 0 turned
  superstep 1: w 22 h 768 m 0 turned
  superstep 2: w 351 h 0 m 0 last
  total 1416
  ended
  $ bspemu run examples/broadcast2.s --format asm --nodes 4 --report
  0 right
  1 right
  2 right
  3 right
  superstep 0: w 278 h 0 m 0 turned
  superstep 1: w 43 h 192 m 0 turned
  superstep 2: w 34 h 192 m 0 turned
  superstep 3: w 351 h 0 m 0 last
  total 1090
  ended
  $ bspemu run examples/messages.s --format asm --nodes 4 --report
  0: 2 messages of 16 bytes: 3 says good morning
  1: 2 messages of 9 bytes: 0 says hello
  2: 2 messages of 16 bytes: 1 says good morning
  3: 2 messages of 9 bytes: 2 says hello
  superstep 0: w 14 h 0 m 0 turned
  superstep 1: w 28 h 24 m 2 turned
  superstep 2: w 173 h 0 m 0 last
  total 239
  ended
  $ bspemu run examples/one_put.s --format asm --nodes 2 --report --g 2 --l 10
  superstep 0: w 6 h 0 m 0 turned
  superstep 1: w 12 h 4 m 0 turned
  superstep 2: w 2 h 0 m 0 last
  total 58
  ended
  $ bspemu run examples/prefix_sum_get.s --format asm --nodes 4 --report
  1
  3
  6
  10
  superstep 0: w 18 h 0 m 0 turned
  superstep 1: w 12 h 4 m 0 turned
  superstep 2: w 17 h 4 m 0 turned
  superstep 3: w 37 h 0 m 0 last
  total 92
  ended
  $ bspemu run examples/prefix_sum_put.s --format asm --nodes 4 --report
  1
  3
  6
  10
  superstep 0: w 18 h 0 m 0 turned
  superstep 1: w 12 h 4 m 0 turned
  superstep 2: w 17 h 4 m 0 turned
  superstep 3: w 37 h 0 m 0 last
  total 92
  ended
  $ bspemu run examples/total_exchange.s --format asm --nodes 4 --report
  0: 0 1000 2000 3000
  1: 1 1001 2001 3001
  2: 2 1002 2002 3002
  3: 3 1003 2003 3003
  superstep 0: w 41 h 0 m 0 turned
  superstep 1: w 31 h 12 m 0 turned
  superstep 2: w 186 h 0 m 0 last
  total 270
  ended
  $ bspemu run examples/wrong_put.s --format asm --nodes 4 --report
  673059850
  0
  0
  0
  superstep 0: w 16 h 0 m 0 turned
  superstep 1: w 13 h 12 m 0 turned
  superstep 2: w 156 h 0 m 0 last
  total 197
  ended
  $ bspemu run examples/refused.s --format asm --nodes 4 --report --g 4 --l 1000
  0 puts
  1 puts
  2 puts
  3 puts
  superstep 0: w 17 h 0 m 0 turned
  superstep 1: w 39 h 0 m 0 last
  total 2056
  refused: OutsideArea rank 3 request 1
  [4]
