  $ unhex images/one_segment.hex > image
  $ poke image 16=0300
  $ bspemu run image
  bspemu: image refused: NotExecutable (stderr)
  [1]
