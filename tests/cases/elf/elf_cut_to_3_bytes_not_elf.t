  $ unhex images/one_segment_at_256.hex | head -c 3 > image
  $ bspemu run image
  bspemu: image refused: NotElf (stderr)
  [1]
