  $ bspemu run examples/ranks.raw --fast 9
  error: unexpected argument '--fast' found (stderr)
   (stderr)
    tip: to pass '--fast' as a value, use '-- --fast' (stderr)
   (stderr)
  Usage: bspemu run <IMAGE> (stderr)
   (stderr)
  For more information, try '--help'. (stderr)
  [1]
