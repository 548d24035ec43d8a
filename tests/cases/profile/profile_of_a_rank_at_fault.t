  $ bspemu run programs/one_rank_at_fault.s --format asm --nodes 3 --limit 1000 --profile profile.csv
  aa (no-eol)
  [3]
  $ cat profile.csv
  superstep,rank,to,ticks,sent,received,kept,messages,requests,state
  0,0,,1000,0,0,0,0,0,exhausted
  0,1,,5,0,0,0,0,0,faulted
  0,2,,1000,0,0,0,0,0,exhausted
