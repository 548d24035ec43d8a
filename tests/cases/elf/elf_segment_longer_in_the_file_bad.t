  $ unhex images/one_segment.hex > image
  $ poke image 72=07000000
  $ bspemu run image
  bspemu: image refused: BadSegment (stderr)
  [1]
