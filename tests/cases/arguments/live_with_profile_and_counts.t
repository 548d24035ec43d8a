  $ bspemu run examples/ranks.elf --counts counts.csv --profile profile.csv --live
  error: the argument '--live' cannot be used with '--profile <FILE>' (stderr)
   (stderr)
  Usage: bspemu <COMMAND> (stderr)
   (stderr)
  For more information, try '--help'. (stderr)
  [1]
