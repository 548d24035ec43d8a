Rank 0 puts past the end of an area, so that the exchange is refused, and nothing lands.

  $ bspemu run programs/a_put_past_its_area_is_refused.s --format asm --nodes 2 --contested contested.csv
  \xff\xff\xff\xff\x00\x00\x00\x00 (esc) (no-eol)
  [4]
  $ cat contested.csv
  superstep,rank,address,bytes,first_kind,first_rank,first_request,first_byte,second_kind,second_rank,second_request,second_byte
