  $ bspemu help walk
  error: unrecognized subcommand 'walk' (stderr)
   (stderr)
  Usage: bspemu <COMMAND> (stderr)
   (stderr)
  For more information, try '--help'. (stderr)
  [1]
