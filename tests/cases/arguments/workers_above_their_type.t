  $ bspemu run examples/ranks.raw --workers 4294967296
  error: invalid value '4294967296' for '--workers <N>': 4294967296 is not in 0..=4294967295 (stderr)
   (stderr)
  For more information, try '--help'. (stderr)
  [1]
