Ranks 0 and 1 put four bytes each into the area of rank 2, at offsets 0 and 2: 11 22 33 44 and 55 66 77 88. The two bytes in which they meet
are contested, in superstep 1, and each line names the first of them. The run and its report are those without the option.

  $ bspemu run programs/puts_that_overlap_in_part_land_in_rank_order.s --format asm --nodes 3 --report --contested contested.csv
  \x11"Ufw\x88\x00\x00superstep 0: w 10 h 0 m 0 turned (esc)
  superstep 1: w 21 h 8 m 0 turned
  superstep 2: w 8 h 0 m 0 last
  total 47
  ended
  $ cat contested.csv
  superstep,rank,address,bytes,first_kind,first_rank,first_request,first_byte,second_kind,second_rank,second_request,second_byte
  1,2,00002002,2,put,0,0,33,put,1,0,55
