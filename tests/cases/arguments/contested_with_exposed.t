  $ bspemu run examples/ranks.elf --contested contested.csv --exposed exposed.csv
  error: the argument '--contested <FILE>' cannot be used with '--exposed <FILE>' (stderr)
   (stderr)
  Usage: bspemu <COMMAND> (stderr)
   (stderr)
  For more information, try '--help'. (stderr)
  [1]
