  $ bspemu run examples/ranks.elf --live --exposed exposed.csv
  error: the argument '--live' cannot be used with '--exposed <FILE>' (stderr)
   (stderr)
  Usage: bspemu <COMMAND> (stderr)
   (stderr)
  For more information, try '--help'. (stderr)
  [1]
