  $ bspemu run
  error: the following required arguments were not provided: (stderr)
    <IMAGE> (stderr)
   (stderr)
  Usage: bspemu run <IMAGE> (stderr)
   (stderr)
  For more information, try '--help'. (stderr)
  [1]
