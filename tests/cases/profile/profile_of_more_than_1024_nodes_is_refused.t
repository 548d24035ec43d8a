A profile has a row and a column for each node, and takes at most 1,024 of them.

  $ bspemu run programs/one_sync.s --format asm --nodes 1025 --large --profile profile
  bspemu: a run with a profile has at most 1024 nodes (stderr)
  [1]
