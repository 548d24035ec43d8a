  $ bspemu run none --live --counts counts.csv
  error: the argument '--live' cannot be used with '--counts <FILE>' (stderr)
   (stderr)
  Usage: bspemu <COMMAND> (stderr)
   (stderr)
  For more information, try '--help'. (stderr)
  [1]
