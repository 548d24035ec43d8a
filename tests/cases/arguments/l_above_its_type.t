  $ bspemu run examples/ranks.raw --l 4294967296
  error: invalid value '4294967296' for '--l <TICKS>': 4294967296 is not in 0..=4294967295 (stderr)
   (stderr)
  For more information, try '--help'. (stderr)
  [1]
