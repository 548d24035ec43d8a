A rank goes on by so many steps at the most, and up to a point of its own: not where it begins, and of no other rank or superstep. Where it
would go on for ever, it goes so far; and it makes no turn.

  $ cat > loop.s <<'END'
  >     li a7, 4
  >     ecall
  >     li t0, 0
  > loop:
  >     addi t0, t0, 1
  >     bne t0, zero, loop
  > END
  $ bspemu debug loop.s --format asm --nodes 2 --framed <<'END'
  > break 1 0x10
  > break 0 0xc
  > break superstep 1
  > go 1 18446744073709551615
  > go 1 5
  > phase
  > turn
  > go 1 3
  > where 1
  > go 1 3
  > go 1 1
  > where 1
  > go 1 1
  > go 1 0
  > go 0 3
  > clear 0 0xc
  > go 0 1000
  > where
  > go 1 1
  > clear 1 0x10
  > go 1 9999
  > clear superstep 1
  > go 1 1000000
  > where 1
  > go 1 1
  > END
  done 1
  ok
  done 1
  ok
  done 1
  ok
  done 1
  moved 2
  done 1
  moved 0
  done 1
  moved 2
  done 1
  turned
  done 1
  moved 2
  done 1
  rank 1 pc 00000010 superstep 1 state running
  done 1
  moved 2
  done 1
  moved 1
  done 1
  rank 1 pc 0000000c superstep 1 state running
  done 1
  moved 1
  done 1
  moved 0
  done 1
  moved 1
  done 1
  ok
  done 1
  moved 1000
  done 2
  rank 0 pc 0000000c superstep 1 state running
  rank 1 pc 00000010 superstep 1 state running
  done 1
  moved 1
  done 1
  ok
  done 1
  moved 9999
  done 1
  ok
  done 1
  moved 989992
  done 1
  rank 1 pc 00000010 superstep 1 state exhausted
  done 1
  moved 0
