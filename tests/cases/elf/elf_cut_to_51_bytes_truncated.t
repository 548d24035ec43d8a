  $ unhex images/one_segment_at_256.hex | head -c 51 > image
  $ bspemu run image
  bspemu: image refused: Truncated (stderr)
  [1]
