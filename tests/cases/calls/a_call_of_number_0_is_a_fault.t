  $ cat > program.s <<'END'
  > # a7 is 0 at the start, and no call has this number.
  >     ecall
  >     li    a7, 1             # end()
  >     ecall
  > END
  $ bspemu run program.s --format asm --report
  superstep 0: w 1 h 0 m 0 last
  total 1
  rank 0 stopped: fault UnknownCall
  [2]
