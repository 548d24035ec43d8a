  $ with-room 40 bspemu run examples/one_put.s --format asm --nodes 2 --counts counts.csv
  bspemu: write failed (stderr)
  [6]
  $ cat counts.csv
  superstep,rank,address,count
  0,0,0000000 (no-eol)
