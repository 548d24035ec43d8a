  $ bspemu debug examples/ranks.raw --report --format raw
  error: unexpected argument '--report' found (stderr)
   (stderr)
    tip: to pass '--report' as a value, use '-- --report' (stderr)
   (stderr)
  Usage: bspemu debug <IMAGE> (stderr)
   (stderr)
  For more information, try '--help'. (stderr)
  [1]
