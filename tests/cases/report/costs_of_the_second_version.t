  $ unhex images/compressed_ranks.hex > program.raw
  $ bspemu run programs/a_put_has_the_bytes_of_its_call.s --format asm --nodes 2 --report
  \x00\x00\x00\x00D3"\x11superstep 0: w 10 h 0 m 0 turned (esc)
  superstep 1: w 20 h 4 m 0 turned
  superstep 2: w 6 h 0 m 0 last
  total 40
  ended
  $ bspemu run programs/an_area_is_in_effect_from_the_next_superstep.s --format asm --report
  abcdsuperstep 0: w 7 h 0 m 0 turned
  superstep 1: w 16 h 0 m 0 turned
  superstep 2: w 7 h 0 m 0 last
  total 30
  ended
  $ bspemu run programs/puts_that_overlap_in_part_land_in_rank_order.s --format asm --nodes 3 --report
  \x11"Ufw\x88\x00\x00superstep 0: w 10 h 0 m 0 turned (esc)
  superstep 1: w 21 h 8 m 0 turned
  superstep 2: w 8 h 0 m 0 last
  total 47
  ended
  $ bspemu run programs/a_put_lands_over_a_get.s --format asm --report
  oversuperstep 0: w 10 h 0 m 0 turned
  superstep 1: w 18 h 0 m 0 turned
  superstep 2: w 7 h 0 m 0 last
  total 35
  ended
  $ bspemu run programs/two_nodes_swap_their_areas_by_gets.s --format asm --nodes 2 --report
  """"\x11\x11\x11\x11superstep 0: w 18 h 0 m 0 turned (esc)
  superstep 1: w 11 h 4 m 0 turned
  superstep 2: w 7 h 0 m 0 last
  total 40
  ended
  $ bspemu run programs/a_put_of_no_bytes_at_the_end_of_an_area_lands_nothing.s --format asm --nodes 2 --report
  \x00\x00\x00\x00\x00\x00\x00\x00\x00\x00\x00\x00\x00\x00\x00\x00superstep 0: w 10 h 0 m 0 turned (esc)
  superstep 1: w 16 h 0 m 0 turned
  superstep 2: w 7 h 0 m 0 last
  total 33
  ended
  $ bspemu run programs/a_tag_size_is_in_effect_from_the_next_superstep.s --format asm --nodes 2 --report
  \x00\x00\x00\x00\x00\x00\x00\x00\x02\x00\x00\x00\x00\x00\x00\x00\x00\x00\x00\x00\x00\x00\x00\x00....\x02\x00\x00\x00\x00\x00\x00\x00\x00\x00\x00\x00\x00\x00\x00\x00abcdsuperstep 0: w 28 h 2 m 1 turned (esc)
  superstep 1: w 13 h 6 m 1 turned
  superstep 2: w 13 h 0 m 0 last
  total 62
  ended
  $ bspemu run programs/messages_stand_in_the_order_of_their_senders.s --format asm --nodes 3 --report
  \x03\x00\x00\x00\x08\x00\x00\x00\x05\x00\x00\x00he..\x02\x00\x00\x00\x03\x00\x00\x00\x01\x00\x00\x00xe..\x01\x00\x00\x00\x02\x00\x00\x00\x02\x00\x00\x00yz..\x00\x00\x00\x00\x00\x00\x00\x00\xff\xff\xff\xffyz..\x00\x00\x00\x00\x00\x00\x00\x00superstep 0: w 20 h 8 m 3 turned (esc)
  superstep 1: w 140 h 0 m 0 last
  total 168
  ended
  $ bspemu run programs/one_sync.s --format asm --limit 4 --report
  superstep 0: w 2 h 0 m 0 turned
  superstep 1: w 2 h 0 m 0 last
  total 4
  ended
  $ bspemu run program.raw --format raw --nodes 3 --report
  012superstep 0: w 10 h 0 m 0 last
  total 10
  ended
  $ bspemu run programs/gets_read_before_puts_land.s --format asm --nodes 2 --report
  """"3333superstep 0: w 23 h 0 m 0 turned
  superstep 1: w 15 h 4 m 0 turned
  superstep 2: w 6 h 0 m 0 last
  total 48
  ended
