  $ bspemu run examples/ranks.raw --ledger 3
  error: invalid value '3' for '--ledger <VERSION>': 3 is not in 1..=2 (stderr)
   (stderr)
  For more information, try '--help'. (stderr)
  [1]
