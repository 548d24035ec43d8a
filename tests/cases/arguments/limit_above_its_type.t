  $ bspemu run examples/ranks.raw --limit 18446744073709551616
  error: invalid value '18446744073709551616' for '--limit <TICKS>': number too large to fit in target type (stderr)
   (stderr)
  For more information, try '--help'. (stderr)
  [1]
