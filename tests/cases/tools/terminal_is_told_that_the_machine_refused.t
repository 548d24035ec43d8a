  $ at-a-terminal "$REPO"/bspemu run programs/one_of_two_ranks_ends.s --format asm --nodes 2
  bspemu: the machine refused to go on; --report tells why (stderr)
  [4]
