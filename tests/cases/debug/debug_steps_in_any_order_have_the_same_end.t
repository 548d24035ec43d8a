  $ bspemu debug examples/messages.s --format asm --nodes 4 --ledger 1 <<'END'
  > step 3 5
  > step 1 7
  > queue 2
  > step 3 1
  > step 0 2
  > break 2 0x30
  > go
  > bytes 2 0 4
  > clear 2 0x30
  > step 3 3
  > turn
  > phase
  > turn
  > step 2 11
  > costs
  > step 1 1
  > phase
  > turn
  > step 3 100
  > break superstep 1
  > go
  > output
  > costs
  > END
  moved 5
  moved 7
  count 0 bytes 0
  moved 1
  moved 2
  ok
  stopped at rank 2 pc 00000030
  93 08 30 00
  ok
  moved 3
  not turned
  moved 7
  turned
  moved 11
  superstep 0: w 14 h 0 turned
  total 14
  moved 1
  moved 96
  turned
  moved 100
  ok
  ended
  0: 2 messages of 16 bytes: 3 says good morning
  1: 2 messages of 9 bytes: 0 says hello
  2: 2 messages of 16 bytes: 1 says good morning
  3: 2 messages of 9 bytes: 2 says hello
  
  superstep 0: w 14 h 0 turned
  superstep 1: w 28 h 24 turned
  superstep 2: w 173 h 0 last
  total 239
