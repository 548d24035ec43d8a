  $ bspemu debug examples/messages.s --format asm --nodes 4 --interactive <<'END'
  > break superstep 1
  > go
  > keep
  > clear superstep 1
  > break superstep 2
  > go
  > keep
  > queue 1
  > costs
  > go
  > output
  > costs
  > keep
  > kept
  > back 1
  > queue 1
  > costs
  > back 0
  > queue 1
  > costs
  > go
  > queue 1
  > back 2
  > costs
  > go
  > quit
  > END
  ok
  stopped at superstep 1
  kept 0
  ok
  ok
  stopped at superstep 2
  kept 1
  count 2 bytes 9
  from 0 tag 02000000 payload 68656c6c6f
  from 0 tag 01000000 payload 00000000
  superstep 0: w 14 h 0 m 0 turned
  superstep 1: w 28 h 24 m 2 turned
  total 66
  ended
  0: 2 messages of 16 bytes: 3 says good morning
  1: 2 messages of 9 bytes: 0 says hello
  2: 2 messages of 16 bytes: 1 says good morning
  3: 2 messages of 9 bytes: 2 says hello
  
  superstep 0: w 14 h 0 m 0 turned
  superstep 1: w 28 h 24 m 2 turned
  superstep 2: w 173 h 0 m 0 last
  total 239
  kept 2
  kept 0 superstep 1, ranks 0 to 3 pc 00000038 state running
  kept 1 superstep 2, ranks 0 to 3 pc 00000058 state running
  kept 2 superstep 2, ranks 0 to 3 pc 00000194 state ended
  ok
  count 2 bytes 9
  from 0 tag 02000000 payload 68656c6c6f
  from 0 tag 01000000 payload 00000000
  superstep 0: w 14 h 0 m 0 turned
  superstep 1: w 28 h 24 m 2 turned
  total 66
  ok
  count 0 bytes 0
  superstep 0: w 14 h 0 m 0 turned
  total 14
  stopped at superstep 2
  count 2 bytes 9
  from 0 tag 02000000 payload 68656c6c6f
  from 0 tag 01000000 payload 00000000
  ok
  superstep 0: w 14 h 0 m 0 turned
  superstep 1: w 28 h 24 m 2 turned
  superstep 2: w 173 h 0 m 0 last
  total 239
  refused: Over
