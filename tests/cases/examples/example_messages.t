  $ bspemu run examples/messages.s --format asm --nodes 4 --report --ledger 1
  0: 2 messages of 16 bytes: 3 says good morning
  1: 2 messages of 9 bytes: 0 says hello
  2: 2 messages of 16 bytes: 1 says good morning
  3: 2 messages of 9 bytes: 2 says hello
  superstep 0: w 14 h 0 turned
  superstep 1: w 28 h 24 turned
  superstep 2: w 173 h 0 last
  total 239
  ended
  $ bspemu run examples/messages.s --format asm --nodes 4 --report --g 4 --l 1000 --ledger 1
  0: 2 messages of 16 bytes: 3 says good morning
  1: 2 messages of 9 bytes: 0 says hello
  2: 2 messages of 16 bytes: 1 says good morning
  3: 2 messages of 9 bytes: 2 says hello
  superstep 0: w 14 h 0 turned
  superstep 1: w 28 h 24 turned
  superstep 2: w 173 h 0 last
  total 3311
  ended
  $ bspemu run examples/messages.s --format asm --nodes 1 --report --ledger 1
  0: 2 messages of 9 bytes: 0 says hello
  superstep 0: w 14 h 0 turned
  superstep 1: w 26 h 17 turned
  superstep 2: w 167 h 0 last
  total 224
  ended
  $ bspemu run examples/messages.s --format asm --nodes 5 --report --ledger 1
  0: 2 messages of 9 bytes: 4 says hello
  1: 2 messages of 9 bytes: 0 says hello
  2: 2 messages of 16 bytes: 1 says good morning
  3: 2 messages of 9 bytes: 2 says hello
  4: 2 messages of 16 bytes: 3 says good morning
  superstep 0: w 14 h 0 turned
  superstep 1: w 28 h 24 turned
  superstep 2: w 173 h 0 last
  total 239
  ended
