All gets read before any put lands, so that a get of what a put writes in the same superstep is in no contest with it.

  $ bspemu run programs/gets_read_before_puts_land.s --format asm --nodes 2 --contested contested.csv
  """"3333 (no-eol)
  $ cat contested.csv
  superstep,rank,address,bytes,first_kind,first_rank,first_request,first_byte,second_kind,second_rank,second_request,second_byte
