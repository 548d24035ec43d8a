  $ unhex images/one_segment.hex > image
  $ poke image 4=02
  $ bspemu run image
  bspemu: image refused: NotElf32Little (stderr)
  [1]
