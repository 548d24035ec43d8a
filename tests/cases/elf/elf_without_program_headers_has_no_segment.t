  $ unhex images/one_segment_at_256.hex | head -c 52 > image
  $ poke image 44=0000
  $ bspemu list image
