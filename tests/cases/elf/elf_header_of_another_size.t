  $ unhex images/one_segment.hex > image
  $ poke image 40=4000
  $ bspemu run image
  bspemu: image refused: BadHeader (stderr)
  [1]
