The two instructions of floating point end before the page does, with it, and behind it, and are cut by its end.

  $ for space in 4060 4062 4064 4066 4068 4070 4072 4074 4076; do
  >   sed "s/SPACE/$space/" programs/sums_at_the_end_of_a_page.s >sums.s
  >   bspemu run sums.s --format asm --float --report | tr '\n' ' '
  >   bspemu run sums.s --format asm --float --counts counts && cut -d , -f 4 counts | sort -n | uniq -c | tr '\n' ' '
  >   echo
  > done
  superstep 0: w 4009 h 0 m 0 last total 4009 ended       1 count       9 1       4 1000 
  superstep 0: w 4009 h 0 m 0 last total 4009 ended       1 count       9 1       4 1000 
  superstep 0: w 4009 h 0 m 0 last total 4009 ended       1 count       9 1       4 1000 
  superstep 0: w 4009 h 0 m 0 last total 4009 ended       1 count       9 1       4 1000 
  superstep 0: w 4009 h 0 m 0 last total 4009 ended       1 count       9 1       4 1000 
  superstep 0: w 4009 h 0 m 0 last total 4009 ended       1 count       9 1       4 1000 
  superstep 0: w 4009 h 0 m 0 last total 4009 ended       1 count       9 1       4 1000 
  superstep 0: w 4009 h 0 m 0 last total 4009 ended       1 count       9 1       4 1000 
  superstep 0: w 4009 h 0 m 0 last total 4009 ended       1 count       9 1       4 1000 
