  $ bspemu run programs/one_rank_at_fault_and_a_text_behind.s --format asm --nodes 3 --limit 1000
  aa (no-eol)
  [3]
