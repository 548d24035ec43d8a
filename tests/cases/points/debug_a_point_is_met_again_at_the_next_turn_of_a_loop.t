  $ cat > program.s <<'END'
  > # An instruction that comes back to itself, at the address where the node starts.
  > loop:
  >     j     loop
  > END
  $ bspemu debug program.s --format asm --memory 4096 --limit 4 <<'END'
  > break 0 0
  > go
  > go
  > go
  > go
  > go
  > END
  ok
  stopped at rank 0 pc 00000000
  stopped at rank 0 pc 00000000
  stopped at rank 0 pc 00000000
  rank 0 stopped: exhausted
  refused: Over
