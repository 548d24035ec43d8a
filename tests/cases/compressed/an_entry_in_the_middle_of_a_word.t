  $ cat > program.s <<'END'
  >     .entry 2
  >     .half 0, 0x4885         # at 2: c.li a7, 1
  >     ecall
  > END
  $ bspemu run program.s --format asm --report --ledger 1
  superstep 0: w 2 h 0 last
  total 2
  ended
