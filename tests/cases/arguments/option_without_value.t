  $ bspemu run examples/ranks.raw --nodes
  error: a value is required for '--nodes <N>' but none was supplied (stderr)
   (stderr)
  For more information, try '--help'. (stderr)
  [1]
