  $ unhex > program.raw <<'END'
  > 00 00        # .half 0x0000
  > END
  $ bspemu run program.raw --format raw --report --ledger 1
  superstep 0: w 1 h 0 last
  total 1
  rank 0 stopped: fault IllegalInstruction
  [2]
