Ranks 1 and 2 put words into one word of rank 0 whose lowest bytes are alike: the other three are contested. In superstep 2 they put one word
both, and nothing is contested. In superstep 3 rank 1 puts twice, and the second rank not at all: two requests of one rank count as any
others.

  $ bspemu run programs/puts_of_alike_and_of_other_bytes.s --format asm --nodes 3 --report --contested contested.csv
  superstep 0: w 10 h 0 m 0 turned
  superstep 1: w 23 h 8 m 0 turned
  superstep 2: w 19 h 8 m 0 turned
  superstep 3: w 36 h 8 m 0 turned
  superstep 4: w 2 h 0 m 0 last
  total 114
  ended
  $ cat contested.csv
  superstep,rank,address,bytes,first_kind,first_rank,first_request,first_byte,second_kind,second_rank,second_request,second_byte
  1,0,00002001,3,put,1,0,33,put,2,0,77
  3,0,00002000,4,put,1,0,04,put,1,1,08
