  $ cat > program.s <<'END'
  > # The fault leaves pc where it is.
  >     li    a0, 1
  >     ebreak
  > END
  $ bspemu debug program.s --format asm --memory 4096 --ledger 1 <<'END'
  > break 0 4
  > go
  > regs 0
  > go
  > go
  > output
  > costs
  > END
  ok
  stopped at rank 0 pc 00000004
  rank 0 pc 00000004 ticks 1 state running
  x0=00000000 x1=00000000 x2=00001000 x3=00000000
  x4=00000000 x5=00000000 x6=00000000 x7=00000000
  x8=00000000 x9=00000000 x10=00000001 x11=00000000
  x12=00000000 x13=00000000 x14=00000000 x15=00000000
  x16=00000000 x17=00000000 x18=00000000 x19=00000000
  x20=00000000 x21=00000000 x22=00000000 x23=00000000
  x24=00000000 x25=00000000 x26=00000000 x27=00000000
  x28=00000000 x29=00000000 x30=00000000 x31=00000000
  rank 0 stopped: fault Break
  refused: Over
  
  superstep 0: w 2 h 0 last
  total 2
