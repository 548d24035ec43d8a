  $ bspemu run programs/one_of_three_ranks_ends.s --format asm --nodes 3
  [4]
