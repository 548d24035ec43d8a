  $ bspemu run examples/ranks.elf --counts counts.csv --exposed exposed.csv
  error: the argument '--counts <FILE>' cannot be used with '--exposed <FILE>' (stderr)
   (stderr)
  Usage: bspemu <COMMAND> (stderr)
   (stderr)
  For more information, try '--help'. (stderr)
  [1]
