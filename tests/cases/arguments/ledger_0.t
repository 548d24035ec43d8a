  $ bspemu run examples/ranks.raw --ledger 0
  error: invalid value '0' for '--ledger <VERSION>': 0 is not in 1..=2 (stderr)
   (stderr)
  For more information, try '--help'. (stderr)
  [1]
