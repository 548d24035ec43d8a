Over a call a rank goes on to where the function returns: with the stack as at the call, or to a point, or until it stops.

  $ cat > sum.s <<'END'
  >     li a0, 3
  >     call sum
  >     call wait
  >     li a7, 1
  >     ecall
  > sum:
  >     beqz a0, done
  >     addi sp, sp, -16
  >     sw ra, 0(sp)
  >     sw a0, 4(sp)
  >     addi a0, a0, -1
  >     call sum
  >     lw t0, 4(sp)
  >     lw ra, 0(sp)
  >     addi sp, sp, 16
  >     add a0, a0, t0
  > done:
  >     ret
  > wait:
  >     li a7, 4
  >     ecall
  >     ret
  > END
  $ bspemu debug sum.s --format asm --nodes 2 --interactive <<'END'
  > list 0 4 3
  > over 0
  > keep
  > over 0
  > where 1
  > back 0
  > break 0 0x28
  > go
  > keep
  > over 0
  > where
  > back 1
  > clear 0 0x28
  > over 0
  > bytes 0 0xfffe4 4
  > over 0
  > back 0
  > over 0
  > over 0
  > over 0
  > over 0
  > over 1
  > over 1
  > over 1
  > turn
  > over 0
  > over 2
  > go
  > over 0
  > END
  00000004: 010000ef  jal x1,0x00000014
  00000008: 038000ef  jal x1,0x00000040
  0000000c: 00100893  addi x17,x0,1
  moved 1
  rank 0 pc 00000004 superstep 0 state running
  kept 0
  moved 36
  rank 0 pc 00000008 superstep 0 state running
  rank 1 pc 00000000 superstep 0 state running
  ok
  ok
  stopped at rank 0 pc 00000028
  kept 1
  moved 6
  rank 0 pc 00000028 superstep 0 state running
  rank 0 pc 00000028 superstep 0 state running
  rank 1 pc 00000000 superstep 0 state running
  ok
  ok
  moved 25
  rank 0 pc 0000002c superstep 0 state running
  02 00 00 00
  moved 1
  rank 0 pc 00000030 superstep 0 state running
  ok
  moved 36
  rank 0 pc 00000008 superstep 0 state running
  moved 3
  rank 0 pc 00000048 superstep 0 state synced
  moved 0
  rank 0 pc 00000048 superstep 0 state synced
  moved 0
  rank 0 pc 00000048 superstep 0 state synced
  moved 1
  rank 1 pc 00000004 superstep 0 state running
  moved 36
  rank 1 pc 00000008 superstep 0 state running
  moved 3
  rank 1 pc 00000048 superstep 0 state synced
  turned
  moved 1
  rank 0 pc 0000000c superstep 1 state running
  refused: BadRank
  ended
  refused: Over

A function may be called by an address in a register, and by a short form.

  $ cat > short.s <<'END'
  >     la t0, end
  >     jalr ra, 0(t0)
  >     .half 0x9282
  >     .half 0x0001
  >     jalr t1, 0(t0)
  > end:
  >     ret
  > END
  $ bspemu list short.s --format asm
  00000000: 000002b7  lui x5,0x0
  00000004: 01428293  addi x5,x5,20
  00000008: 000280e7  jalr x1,0(x5)
  0000000c: 9282      jalr x1,0(x5) # compressed
  0000000e: 0001      addi x0,x0,0 # compressed
  00000010: 00028367  jalr x6,0(x5)
  00000014: 00008067  jalr x0,0(x1)
  $ bspemu debug short.s --format asm --interactive <<'END'
  > step 0 2
  > over 0
  > over 0
  > over 0
  > over 0
  > END
  moved 2
  moved 2
  rank 0 pc 0000000c superstep 0 state running
  moved 2
  rank 0 pc 0000000e superstep 0 state running
  moved 1
  rank 0 pc 00000010 superstep 0 state running
  moved 1
  rank 0 pc 00000014 superstep 0 state running
