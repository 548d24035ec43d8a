  $ cat > program.s <<'END'
  > # Two ticks for each superstep, and a limit of eleven.
  >     li    a7, 4
  > again:
  >     ecall                   # sync()
  >     j     again
  > END
  $ bspemu run program.s --format asm --limit 11 --report --ledger 1
  superstep 0: w 2 h 0 turned
  superstep 1: w 2 h 0 turned
  superstep 2: w 2 h 0 turned
  superstep 3: w 2 h 0 turned
  superstep 4: w 2 h 0 turned
  superstep 5: w 1 h 0 last
  total 11
  rank 0 stopped: exhausted
  [3]
