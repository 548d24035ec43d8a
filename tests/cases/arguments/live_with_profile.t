  $ bspemu run examples/ranks.elf --live --profile profile.csv
  error: the argument '--live' cannot be used with '--profile <FILE>' (stderr)
   (stderr)
  Usage: bspemu <COMMAND> (stderr)
   (stderr)
  For more information, try '--help'. (stderr)
  [1]
  $ test -e profile.csv
  [1]
