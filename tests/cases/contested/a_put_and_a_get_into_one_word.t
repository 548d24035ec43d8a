A put and a get of one rank bring four bytes each to one place, "over" and zeros, and both are ordered by nothing in BSPlib.

  $ bspemu run programs/a_put_lands_over_a_get.s --format asm --contested contested.csv
  over (no-eol)
  $ cat contested.csv
  superstep,rank,address,bytes,first_kind,first_rank,first_request,first_byte,second_kind,second_rank,second_request,second_byte
  1,0,00003000,4,put,0,0,6f,get,0,1,00
