  $ cat > program.s <<'END'
  > # Two ticks, and a limit of two.
  >     li   a7, 16
  >     ecall                       # abort(0, 0)
  > END
  $ bspemu run program.s --format asm --limit 2
  [2]
