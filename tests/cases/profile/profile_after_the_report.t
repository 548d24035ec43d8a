  $ bspemu run examples/one_put.s --format asm --nodes 2 --report --profile profile.csv --ledger 1
  superstep 0: w 6 h 0 turned
  superstep 1: w 12 h 4 turned
  superstep 2: w 2 h 0 last
  total 24
  ended
  $ cat profile.csv
  superstep,rank,to,ticks,sent,received,kept,messages,requests,state
  0,0,,6,0,0,0,0,0,synced
  0,1,,6,0,0,0,0,0,synced
  1,0,,12,4,0,0,0,1,synced
  1,1,,5,0,4,0,0,0,synced
  1,0,1,,4,,,,,
  2,0,,2,0,0,0,0,0,ended
  2,1,,2,0,0,0,0,0,ended
