  $ unhex images/one_segment.hex > image
  $ poke image 52=03000000
  $ bspemu run image
  bspemu: image refused: Dynamic (stderr)
  [1]
