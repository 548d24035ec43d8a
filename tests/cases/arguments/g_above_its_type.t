  $ bspemu run examples/ranks.raw --g 4294967296
  error: invalid value '4294967296' for '--g <TICKS>': 4294967296 is not in 0..=4294967295 (stderr)
   (stderr)
  For more information, try '--help'. (stderr)
  [1]
