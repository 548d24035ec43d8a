A prefix sum by puts: no call is unbuffered, so that no byte is exposed, and the file has the names of its columns alone.

  $ bspemu run examples/prefix_sum_put.s --format asm --nodes 4 --report --exposed exposed.csv
  1
  3
  6
  10
  superstep 0: w 18 h 0 m 0 turned
  superstep 1: w 12 h 4 m 0 turned
  superstep 2: w 17 h 4 m 0 turned
  superstep 3: w 37 h 0 m 0 last
  total 92
  ended
  $ cat exposed.csv
  superstep,rank,address,bytes,reader_kind,reader_rank,reader_request,reader_pc,writer_kind,writer_rank,writer_request,writer_pc
