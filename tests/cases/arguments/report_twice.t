  $ bspemu run examples/ranks.raw --report --report
  error: the argument '--report' cannot be used multiple times (stderr)
   (stderr)
  Usage: bspemu run [OPTIONS] <IMAGE> (stderr)
   (stderr)
  For more information, try '--help'. (stderr)
  [1]
