  $ bspemu run examples/ranks.raw other.raw
  error: unexpected argument 'other.raw' found (stderr)
   (stderr)
  Usage: bspemu run [OPTIONS] <IMAGE> (stderr)
   (stderr)
  For more information, try '--help'. (stderr)
  [1]
