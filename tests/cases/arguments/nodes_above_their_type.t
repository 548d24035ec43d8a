  $ bspemu run examples/ranks.raw --nodes 4294967296
  error: invalid value '4294967296' for '--nodes <N>': 4294967296 is not in 0..=4294967295 (stderr)
   (stderr)
  For more information, try '--help'. (stderr)
  [1]
