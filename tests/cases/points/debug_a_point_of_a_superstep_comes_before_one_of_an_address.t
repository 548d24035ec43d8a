  $ cat > program.s <<'END'
  > # Supersteps of two instructions, each of which begins at 8, after that of the first two.
  >     li    a7, 4             # sync()
  >     ecall
  > again:
  >     li    a7, 4
  >     ecall
  >     addi  s0, s0, 1
  >     sltiu t0, s0, 5
  >     bnez  t0, again
  >     li    a7, 1             # end()
  >     ecall
  > END
  $ bspemu debug program.s --format asm --memory 4096 --nodes 2 --ledger 1 <<'END'
  > break superstep 0
  > break superstep 2
  > break superstep 3
  > break superstep 18446744073709551615
  > break 0 4
  > break 0 8
  > go
  > step 0 1
  > go
  > go
  > regs 0
  > go
  > phase
  > turn
  > clear superstep 3
  > go
  > costs
  > END
  ok
  ok
  ok
  ok
  ok
  ok
  stopped at rank 0 pc 00000004
  moved 1
  stopped at rank 0 pc 00000008
  stopped at superstep 2
  rank 0 pc 00000010 ticks 4 state running
  x0=00000000 x1=00000000 x2=00001000 x3=00000000
  x4=00000000 x5=00000000 x6=00000000 x7=00000000
  x8=00000000 x9=00000000 x10=00000000 x11=00000000
  x12=00000000 x13=00000000 x14=00000000 x15=00000000
  x16=00000000 x17=00000004 x18=00000000 x19=00000000
  x20=00000000 x21=00000000 x22=00000000 x23=00000000
  x24=00000000 x25=00000000 x26=00000000 x27=00000000
  x28=00000000 x29=00000000 x30=00000000 x31=00000000
  stopped at rank 0 pc 00000008
  moved 7
  turned
  ok
  stopped at rank 0 pc 00000008
  superstep 0: w 2 h 0 turned
  superstep 1: w 2 h 0 turned
  superstep 2: w 5 h 0 turned
  total 9
