  $ unhex images/one_segment_at_256.hex > image
  $ poke image 60=f4ffffff
  $ bspemu run image --memory 16777216
  bspemu: image refused: SegmentOutside (stderr)
  [1]
