  $ bspemu run examples/ranks.elf --counts counts.csv --contested contested.csv
  error: the argument '--counts <FILE>' cannot be used with '--contested <FILE>' (stderr)
   (stderr)
  Usage: bspemu <COMMAND> (stderr)
   (stderr)
  For more information, try '--help'. (stderr)
  [1]
