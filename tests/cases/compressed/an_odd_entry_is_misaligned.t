  $ cat > program.s <<'END'
  >     .entry 1
  >     nop
  > END
  $ bspemu run program.s --format asm --report --ledger 1
  superstep 0: w 1 h 0 last
  total 1
  rank 0 stopped: fault Misaligned
  [2]
