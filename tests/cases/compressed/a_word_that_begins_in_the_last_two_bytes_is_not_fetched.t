  $ cat > program.s <<'END'
  >     .entry 4094
  >     .space 4094
  >     .half 0x0013
  > END
  $ bspemu run program.s --format asm --memory 4096 --report --ledger 1
  superstep 0: w 1 h 0 last
  total 1
  rank 0 stopped: fault FetchOutside
  [2]
