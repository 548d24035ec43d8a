  $ unhex images/one_segment.hex > image
  $ poke image 18=0300
  $ bspemu run image
  bspemu: image refused: NotRiscV (stderr)
  [1]
