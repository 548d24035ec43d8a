  $ bspemu run examples/one_put.s --format asm --nodes 2 --profile profile.csv
  $ cat profile.csv
  superstep,rank,to,ticks,sent,received,kept,messages,requests,state
  0,0,,6,0,0,0,0,0,synced
  0,1,,6,0,0,0,0,0,synced
  1,0,,12,4,0,0,0,1,synced
  1,1,,5,0,4,0,0,0,synced
  1,0,1,,4,,,,,
  2,0,,2,0,0,0,0,0,ended
  2,1,,2,0,0,0,0,0,ended
