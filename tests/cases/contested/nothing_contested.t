A prefix sum by puts: each rank writes to a word of its own, so that no byte is contested, and the file has the names of its columns alone.

  $ bspemu run examples/prefix_sum_put.s --format asm --nodes 4 --report --contested contested.csv
  1
  3
  6
  10
  superstep 0: w 18 h 0 m 0 turned
  superstep 1: w 12 h 4 m 0 turned
  superstep 2: w 17 h 4 m 0 turned
  superstep 3: w 37 h 0 m 0 last
  total 92
  ended
  $ cat contested.csv
  superstep,rank,address,bytes,first_kind,first_rank,first_request,first_byte,second_kind,second_rank,second_request,second_byte
