  $ bspemu run examples/refused.s --format asm --nodes 4 --profile profile.csv
  0 puts
  1 puts
  2 puts
  3 puts
  [4]
  $ cat profile.csv
  superstep,rank,to,ticks,sent,received,kept,messages,requests,state
  0,0,,17,0,0,0,0,0,synced
  0,1,,17,0,0,0,0,0,synced
  0,2,,17,0,0,0,0,0,synced
  0,3,,17,0,0,0,0,0,synced
  1,0,,39,0,0,0,0,2,synced
  1,1,,39,0,0,0,0,2,synced
  1,2,,39,0,0,0,0,2,synced
  1,3,,39,0,0,0,0,2,synced
