  $ bspemu debug examples/refused.s --format asm --nodes 4 --g 4 --l 1000 --ledger 1 <<'END'
  > break superstep 1
  > go
  > costs
  > output
  > go
  > costs
  > output
  > regs 3
  > go
  > END
  ok
  stopped at superstep 1
  superstep 0: w 17 h 0 turned
  total 1017
  
  refused: OutsideArea rank 3 request 1
  superstep 0: w 17 h 0 turned
  superstep 1: w 39 h 0 last
  total 2056
  0 puts
  1 puts
  2 puts
  3 puts
  
  rank 3 pc 000000a0 ticks 56 state synced
  x0=00000000 x1=0000004c x2=00100000 x3=00000000
  x4=00000000 x5=00000028 x6=0000000a x7=00000033
  x8=00000003 x9=00000004 x10=00000000 x11=00000118
  x12=0000011c x13=00000010 x14=00000004 x15=00000000
  x16=00000000 x17=00000004 x18=0000011c x19=00000118
  x20=00000000 x21=00000000 x22=00000000 x23=00000000
  x24=00000000 x25=00000000 x26=00000000 x27=00000000
  x28=00000000 x29=00000000 x30=00000000 x31=00000000
  refused: Over
