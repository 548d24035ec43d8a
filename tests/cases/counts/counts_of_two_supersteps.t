Rank 0 makes 3 + 2 * 2 + 2 steps in superstep 0, and rank 1 two more: w is 11.

  $ bspemu run programs/a_loop_in_the_first_of_two_supersteps.s --format asm --nodes 2 --report --counts counts.csv
  superstep 0: w 11 h 0 m 0 turned
  superstep 1: w 2 h 0 m 0 last
  total 13
  ended
  $ cat counts.csv
  superstep,rank,address,count
  0,0,00000000,1
  0,0,00000004,1
  0,0,00000008,1
  0,0,0000000c,2
  0,0,00000010,2
  0,0,00000014,1
  0,0,00000018,1
  0,1,00000000,1
  0,1,00000004,1
  0,1,00000008,1
  0,1,0000000c,3
  0,1,00000010,3
  0,1,00000014,1
  0,1,00000018,1
  1,0,0000001c,1
  1,0,00000020,1
  1,1,0000001c,1
  1,1,00000020,1
  $ awk -F, 'NR > 1 { steps[$1 "," $2] += $4 } END { for (it in steps) print it "," steps[it] }' counts.csv | sort
  0,0,9
  0,1,11
  1,0,2
  1,1,2
