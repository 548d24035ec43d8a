  $ printf 'addi x17, x0, 7\naddi x10, x0, 3\necall\n' >far.s && bsprun far.s
  bsprun: rank 0 stopped: fault BadRank (stderr)
  rank 0 stopped in superstep 0, after 3 instructions: fault BadRank (stderr)
    at   far.s:3 (stderr)
    call bsp_put(pid 3, src 0x0 (NULL), dst 0x0 (NULL), offset 0, nbytes 0) (stderr)
    why  there is no rank 3: with 1 node rank 0 is the only one (stderr)
    gdb  bspgdb far.s -- -ex continue (stderr)
  [2]
