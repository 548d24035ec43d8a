  $ bspemu debug examples/ranks.raw --workers 2 --format raw
  error: unexpected argument '--workers' found (stderr)
   (stderr)
    tip: to pass '--workers' as a value, use '-- --workers' (stderr)
   (stderr)
  Usage: bspemu debug <IMAGE> (stderr)
   (stderr)
  For more information, try '--help'. (stderr)
  [1]
