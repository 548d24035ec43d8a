  $ bspemu list examples/ranks.raw --ledger 1
  error: unexpected argument '--ledger' found (stderr)
   (stderr)
    tip: a similar argument exists: '--large' (stderr)
   (stderr)
  Usage: bspemu list --large <IMAGE> (stderr)
   (stderr)
  For more information, try '--help'. (stderr)
  [1]
