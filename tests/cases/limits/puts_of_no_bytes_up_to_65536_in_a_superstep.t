  $ cat > program.s <<'END'
  > # An area of no bytes is registered. Superstep 1 puts no bytes into it, 65,537 times: the last put is refused, and 65,536 stand.
  >     li    a0, 0x2000
  >     li    a1, 0
  >     li    a7, 5             # push_reg(0x2000, 0)
  >     ecall
  >     li    a7, 4             # sync()
  >     ecall
  >     li    a0, 0
  >     li    a1, 0x1000
  >     li    a2, 0x2000
  >     li    a3, 0
  >     li    a4, 0
  >     li    a7, 7             # put(0, 0x1000, 0x2000, 0, 0)
  >     li    s0, 65537
  > again:
  >     ecall
  >     addi  s0, s0, -1
  >     bnez  s0, again
  >     li    a7, 1             # end()
  >     ecall
  > END
  $ bspemu run program.s --format asm --report --profile profile.csv --ledger 1
  superstep 0: w 7 h 0 turned
  superstep 1: w 196619 h 0 last
  total 196626
  rank 0 stopped: fault TooMuch
  [2]
  $ cat profile.csv
  superstep,rank,to,ticks,sent,received,kept,messages,requests,state
  0,0,,7,0,0,0,0,0,synced
  1,0,,196619,0,0,0,0,65536,faulted
