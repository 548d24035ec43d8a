  $ cat > program.s <<'END'
  > # Two nodes end at once.
  >     li    a7, 1             # end()
  >     ecall
  > END
  $ bspemu debug program.s --format asm --memory 4096 --nodes 2 <<'END'
  > break 0 0
  > break 0 4
  > break 1 4
  > step 0 2
  > phase
  > clear 0 4
  > clear 0 4
  > clear 1 4
  > clear 0 0
  > turn
  > END
  ok
  ok
  ok
  moved 2
  moved 2
  ok
  refused: NoSuchBreak
  ok
  ok
  ended
