  $ bspemu run programs/one_sync.s --format asm --nodes 1024 --memory 4096 --limit 4 --report
  superstep 0: w 2 h 0 m 0 turned
  superstep 1: w 2 h 0 m 0 last
  total 4
  ended
  $ bspemu run programs/one_sync.s --format asm --nodes 1024 --memory 4096 --limit 4 --report --workers 64
  superstep 0: w 2 h 0 m 0 turned
  superstep 1: w 2 h 0 m 0 last
  total 4
  ended
