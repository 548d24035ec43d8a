  $ cat > program.s <<'END'
  > # Two ticks, and a limit of two: the exchange is made, and the node is exhausted in the next superstep.
  >     li    a7, 4             # sync()
  >     ecall
  >     li    a7, 1             # end()
  >     ecall
  > END
  $ bspemu run program.s --format asm --limit 2 --report --ledger 1
  superstep 0: w 2 h 0 turned
  superstep 1: w 0 h 0 last
  total 2
  rank 0 stopped: exhausted
  [3]
