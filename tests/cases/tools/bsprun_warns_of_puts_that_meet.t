  $ bsprun -n 4 --warn examples/wrong_put.s
  673059850
  0
  0
  0
  bsprun: warning: two puts of superstep 1 write byte 0x101 of rank 0: that of rank 0 at wrong_put.s:38, and that of rank 1 at wrong_put.s:38; offset 1 is not a multiple of the 4 bytes of a put: offsets count bytes (stderr)
  bsprun: checked for other likely mistakes, and found none: requests without effect, areas in different orders, offsets that are not a multiple of a word, targets of gets read too early, messages read too late, messages read too early, messages counted too early, addresses sent to other ranks, tags of a size not yet in effect (stderr)
