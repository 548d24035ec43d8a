  $ with-room 10 bspemu run programs/lines_up_to_a_fault.s --format asm --nodes 2 --live > out
  bspemu: write failed (stderr)
  [6]
  $ cat out
  0 0
  1 0
  0  (no-eol)
