  $ in-turns bspemu debug examples/wrong_put.s --format asm --nodes 4 --interactive --ledger 1 <<'END'
  > 1 break 1 0x68
  > 1 go
  > 9 regs 1
  > 1 bytes 1 0xf0 4
  > 1 step 1 1
  > 1 bytes 0 0x100 8
  > 1 phase
  > 1 turn
  > 1 bytes 0 0x100 8
  > 1 clear 1 0x68
  > 1 go
  > 5 output
  > 4 costs
  > 0 quit
  > END
  << break 1 0x68
  ok
  << go
  stopped at rank 1 pc 00000068
  << regs 1
  rank 1 pc 00000068 ticks 26 state running
  x0/zero=00000000   x1/ra=00000000   x2/sp=00100000   x3/gp=00000000
    x4/tp=00000000   x5/t0=00000014   x6/t1=0000000a   x7/t2=00000000
    x8/s0=00000001   x9/s1=00000004  x10/a0=00000000  x11/a1=000000f0
   x12/a2=00000100  x13/a3=00000001  x14/a4=00000004  x15/a5=00000000
   x16/a6=00000000  x17/a7=00000007  x18/s2=00000100  x19/s3=000000f0
   x20/s4=00000000  x21/s5=00000000  x22/s6=00000000  x23/s7=00000000
   x24/s8=00000000  x25/s9=00000000 x26/s10=00000000 x27/s11=00000000
   x28/t3=00000000  x29/t4=00000000  x30/t5=00000000  x31/t6=00000000
  << bytes 1 0xf0 4
  14 00 00 00
  << step 1 1
  moved 1
  << bytes 0 0x100 8
  00 00 00 00 00 00 00 00
  << phase
  moved 28
  << turn
  turned
  << bytes 0 0x100 8
  0a 14 1e 28 00 00 00 00
  << clear 1 0x68
  ok
  << go
  ended
  << output
  673059850
  0
  0
  0
  
  << costs
  superstep 0: w 16 h 0 turned
  superstep 1: w 13 h 16 turned
  superstep 2: w 156 h 0 last
  total 201
  << quit
