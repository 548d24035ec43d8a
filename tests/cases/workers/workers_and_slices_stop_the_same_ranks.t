  $ bspemu run programs/one_rank_at_fault_and_a_text_behind.s --format asm --nodes 3 --limit 1000 --report --workers 1 --slice 1
  aasuperstep 0: w 1000 h 0 m 0 last
  total 1000
  rank 0 stopped: exhausted
  [3]
  $ bspemu run programs/one_rank_at_fault_and_a_text_behind.s --format asm --nodes 3 --limit 1000 --report --workers 1 --slice 7
  aasuperstep 0: w 1000 h 0 m 0 last
  total 1000
  rank 0 stopped: exhausted
  [3]
  $ bspemu run programs/one_rank_at_fault_and_a_text_behind.s --format asm --nodes 3 --limit 1000 --report --workers 1 --slice 1000
  aasuperstep 0: w 1000 h 0 m 0 last
  total 1000
  rank 0 stopped: exhausted
  [3]
  $ bspemu run programs/one_rank_at_fault_and_a_text_behind.s --format asm --nodes 3 --limit 1000 --report --workers 2 --slice 1
  aasuperstep 0: w 1000 h 0 m 0 last
  total 1000
  rank 0 stopped: exhausted
  [3]
  $ bspemu run programs/one_rank_at_fault_and_a_text_behind.s --format asm --nodes 3 --limit 1000 --report --workers 2 --slice 7
  aasuperstep 0: w 1000 h 0 m 0 last
  total 1000
  rank 0 stopped: exhausted
  [3]
  $ bspemu run programs/one_rank_at_fault_and_a_text_behind.s --format asm --nodes 3 --limit 1000 --report --workers 2 --slice 1000
  aasuperstep 0: w 1000 h 0 m 0 last
  total 1000
  rank 0 stopped: exhausted
  [3]
  $ bspemu run programs/one_rank_at_fault_and_a_text_behind.s --format asm --nodes 3 --limit 1000 --report --workers 3 --slice 1
  aasuperstep 0: w 1000 h 0 m 0 last
  total 1000
  rank 0 stopped: exhausted
  [3]
  $ bspemu run programs/one_rank_at_fault_and_a_text_behind.s --format asm --nodes 3 --limit 1000 --report --workers 3 --slice 7
  aasuperstep 0: w 1000 h 0 m 0 last
  total 1000
  rank 0 stopped: exhausted
  [3]
  $ bspemu run programs/one_rank_at_fault_and_a_text_behind.s --format asm --nodes 3 --limit 1000 --report --workers 3 --slice 1000
  aasuperstep 0: w 1000 h 0 m 0 last
  total 1000
  rank 0 stopped: exhausted
  [3]
