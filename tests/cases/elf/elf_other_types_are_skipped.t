  $ unhex images/one_segment.hex > image
  $ poke image 52=03000070
  $ bspemu run image
  [2]
