A rank stops in superstep 2: what was contested in the exchange at the end of superstep 1 is told, and the exchange that is not made has no
lines, though its puts were asked for.

  $ bspemu run programs/puts_up_to_a_fault.s --format asm --nodes 3 --report --contested contested.csv
  superstep 0: w 11 h 0 m 0 turned
  superstep 1: w 13 h 2 m 0 turned
  superstep 2: w 16 h 0 m 0 last
  total 42
  rank 2 stopped: fault FetchOutside
  [2]
  $ cat contested.csv
  superstep,rank,address,bytes,first_kind,first_rank,first_request,first_byte,second_kind,second_rank,second_request,second_byte
  1,0,00002000,1,put,0,0,00,put,1,0,01
