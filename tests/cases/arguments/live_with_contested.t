  $ bspemu run examples/ranks.elf --live --contested contested.csv
  error: the argument '--live' cannot be used with '--contested <FILE>' (stderr)
   (stderr)
  Usage: bspemu <COMMAND> (stderr)
   (stderr)
  For more information, try '--help'. (stderr)
  [1]
