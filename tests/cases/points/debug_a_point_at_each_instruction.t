  $ cat > program.s <<'END'
  > # A superstep of two instructions, and then the end.
  >     li    a7, 4             # sync()
  >     ecall
  >     li    a7, 1             # end()
  >     ecall
  > END
  $ bspemu debug program.s --format asm --memory 4096 --nodes 2 <<'END'
  > break 0 0
  > break 0 4
  > break 0 8
  > break 1 0
  > break 1 4
  > break 1 8
  > break 1 0x10
  > go
  > go
  > go
  > go
  > go
  > go
  > go
  > go
  > go
  > go
  > output
  > END
  ok
  ok
  ok
  ok
  ok
  ok
  ok
  stopped at rank 0 pc 00000004
  stopped at rank 1 pc 00000000
  stopped at rank 1 pc 00000004
  stopped at rank 0 pc 00000008
  stopped at rank 1 pc 00000008
  ended
  refused: Over
  refused: Over
  refused: Over
  refused: Over
  
