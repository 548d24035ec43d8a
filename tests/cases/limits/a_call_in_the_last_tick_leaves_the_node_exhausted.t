  $ cat > program.s <<'END'
  > # Two ticks, and a limit of two.
  >     li   a7, 2
  >     ecall                       # nprocs()
  >     nop
  > END
  $ bspemu run program.s --format asm --limit 2
  [3]
