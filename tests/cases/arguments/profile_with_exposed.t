  $ bspemu run examples/ranks.elf --profile profile.csv --exposed exposed.csv
  error: the argument '--profile <FILE>' cannot be used with '--exposed <FILE>' (stderr)
   (stderr)
  Usage: bspemu <COMMAND> (stderr)
   (stderr)
  For more information, try '--help'. (stderr)
  [1]
