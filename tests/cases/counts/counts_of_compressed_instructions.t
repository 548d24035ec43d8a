  $ unhex < images/compressed_ranks.hex > image
  $ bspemu run image --format raw --counts counts.csv
  0 (no-eol)
  $ cat counts.csv
  superstep,rank,address,count
  0,0,00000000,1
  0,0,00000002,1
  0,0,00000006,1
  0,0,0000000a,1
  0,0,0000000e,1
  0,0,00000012,1
  0,0,00000014,1
  0,0,00000016,1
  0,0,0000001a,1
  0,0,0000001c,1
