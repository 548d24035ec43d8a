The clock is the last of them.

  $ printf 'li a7, 19\necall\nli a7, 20\necall\n' >call.s
  $ bsprun call.s
  bsprun: rank 0 stopped: fault UnknownCall (stderr)
  rank 0 stopped in superstep 0, after 4 instructions: fault UnknownCall (stderr)
    at   call.s:4 (stderr)
    call call 20() (stderr)
    why  a7 is 20, and calls have the numbers 1 to 19 (stderr)
    gdb  bspgdb call.s -- -ex continue (stderr)
  [2]
