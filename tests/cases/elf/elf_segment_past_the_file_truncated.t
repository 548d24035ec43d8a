  $ unhex images/one_segment.hex | head -c 91 > image
  $ bspemu run image
  bspemu: image refused: Truncated (stderr)
  [1]
