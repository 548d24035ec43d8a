  $ cat > program.s <<'END'
  > # Two ticks, and a limit of two.
  >     li   a7, 19
  >     ecall                       # no call has this number
  > END
  $ bspemu run program.s --format asm --limit 2
  [2]
