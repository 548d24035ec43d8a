  $ unhex images/two_segments.hex > image
  $ bspemu run image
