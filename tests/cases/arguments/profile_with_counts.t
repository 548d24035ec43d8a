  $ bspemu run examples/ranks.elf --counts counts.csv --profile profile.csv
  error: the argument '--profile <FILE>' cannot be used with '--counts <FILE>' (stderr)
   (stderr)
  Usage: bspemu <COMMAND> (stderr)
   (stderr)
  For more information, try '--help'. (stderr)
  [1]
