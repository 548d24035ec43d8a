  $ bsprun -n 2 examples/refused.s
  0 puts
  1 puts
  bsprun: refused: OutsideArea rank 1 request 1 (stderr)
  rank 1, superstep 1, request 1: it reaches past the area (stderr)
    at   refused.s:49 (stderr)
    call bsp_put(pid 0, src 0x118, dst 0x11c, offset 8, nbytes 4) (stderr)
    why  offset 8 + 4 bytes = 12, but the area at rank 0 has 8 bytes (stderr)
    gdb  bspgdb -n 2 examples/refused.s -- -ex 'monitor superstep 1' -ex continue -ex 'break *0x94 thread 2' -ex continue (stderr)
  [4]
