  $ unhex images/two_segments.hex > image
  $ poke image 104=02000000
  $ bspemu run image
  bspemu: image refused: SegmentOutside (stderr)
  [1]
