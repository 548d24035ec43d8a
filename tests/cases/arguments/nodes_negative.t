  $ bspemu run examples/ranks.raw --nodes -1
  error: unexpected argument '-1' found (stderr)
   (stderr)
    tip: to pass '-1' as a value, use '-- -1' (stderr)
   (stderr)
  Usage: bspemu run [OPTIONS] <IMAGE> (stderr)
   (stderr)
  For more information, try '--help'. (stderr)
  [1]
