  $ bspemu run examples/ranks.elf --profile profile.csv --contested contested.csv
  error: the argument '--profile <FILE>' cannot be used with '--contested <FILE>' (stderr)
   (stderr)
  Usage: bspemu <COMMAND> (stderr)
   (stderr)
  For more information, try '--help'. (stderr)
  [1]
