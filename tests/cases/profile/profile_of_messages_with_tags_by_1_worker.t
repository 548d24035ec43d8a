  $ bspemu run examples/messages.s --format asm --nodes 4 --workers 1 --profile profile.csv
  0: 2 messages of 16 bytes: 3 says good morning
  1: 2 messages of 9 bytes: 0 says hello
  2: 2 messages of 16 bytes: 1 says good morning
  3: 2 messages of 9 bytes: 2 says hello
  $ cat profile.csv
  superstep,rank,to,ticks,sent,received,kept,messages,requests,state
  0,0,,14,0,0,0,0,0,synced
  0,1,,14,0,0,0,0,0,synced
  0,2,,14,0,0,0,0,0,synced
  0,3,,14,0,0,0,0,0,synced
  1,0,,26,17,24,0,2,2,synced
  1,1,,28,24,17,0,2,2,synced
  1,2,,26,17,24,0,2,2,synced
  1,3,,28,24,17,0,2,2,synced
  1,0,1,,17,,,,,
  1,1,2,,24,,,,,
  1,2,3,,17,,,,,
  1,3,0,,24,,,,,
  2,0,,173,0,0,0,0,0,ended
  2,1,,167,0,0,0,0,0,ended
  2,2,,173,0,0,0,0,0,ended
  2,3,,167,0,0,0,0,0,ended
