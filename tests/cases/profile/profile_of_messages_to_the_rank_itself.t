  $ bspemu run examples/messages.s --format asm --profile profile.csv
  0: 2 messages of 9 bytes: 0 says hello
  $ cat profile.csv
  superstep,rank,to,ticks,sent,received,kept,messages,requests,state
  0,0,,14,0,0,0,0,0,synced
  1,0,,26,0,0,17,0,2,synced
  1,0,0,,17,,,,,
  2,0,,167,0,0,0,0,0,ended
