  $ bspemu run examples/prefix_sum_put.s --format asm --nodes 4 --workers 3 --profile profile.csv
  1
  3
  6
  10
  $ cat profile.csv
  superstep,rank,to,ticks,sent,received,kept,messages,requests,state
  0,0,,18,0,0,0,0,0,synced
  0,1,,18,0,0,0,0,0,synced
  0,2,,18,0,0,0,0,0,synced
  0,3,,18,0,0,0,0,0,synced
  1,0,,12,4,0,0,0,1,synced
  1,1,,12,4,4,0,0,1,synced
  1,2,,12,4,4,0,0,1,synced
  1,3,,5,0,4,0,0,0,synced
  1,0,1,,4,,,,,
  1,1,2,,4,,,,,
  1,2,3,,4,,,,,
  2,0,,15,4,0,0,0,1,synced
  2,1,,17,4,0,0,0,1,synced
  2,2,,10,0,4,0,0,0,synced
  2,3,,10,0,4,0,0,0,synced
  2,0,2,,4,,,,,
  2,1,3,,4,,,,,
  3,0,,29,0,0,0,0,0,ended
  3,1,,29,0,0,0,0,0,ended
  3,2,,31,0,0,0,0,0,ended
  3,3,,37,0,0,0,0,0,ended
