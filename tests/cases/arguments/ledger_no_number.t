  $ bspemu run examples/ranks.raw --ledger second
  error: invalid value 'second' for '--ledger <VERSION>': invalid digit found in string (stderr)
   (stderr)
  For more information, try '--help'. (stderr)
  [1]
