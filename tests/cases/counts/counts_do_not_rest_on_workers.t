  $ bspemu run examples/messages.s --format asm --nodes 4 --counts counts.csv
  0: 2 messages of 16 bytes: 3 says good morning
  1: 2 messages of 9 bytes: 0 says hello
  2: 2 messages of 16 bytes: 1 says good morning
  3: 2 messages of 9 bytes: 2 says hello
  $ bspemu run examples/messages.s --format asm --nodes 4 --workers 3 --slice 1 --counts other.csv
  0: 2 messages of 16 bytes: 3 says good morning
  1: 2 messages of 9 bytes: 0 says hello
  2: 2 messages of 16 bytes: 1 says good morning
  3: 2 messages of 9 bytes: 2 says hello
  $ cmp counts.csv other.csv
