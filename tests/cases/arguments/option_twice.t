  $ bspemu run examples/ranks.raw --nodes 3 --nodes 3
  error: the argument '--nodes <N>' cannot be used multiple times (stderr)
   (stderr)
  Usage: bspemu run [OPTIONS] <IMAGE> (stderr)
   (stderr)
  For more information, try '--help'. (stderr)
  [1]
