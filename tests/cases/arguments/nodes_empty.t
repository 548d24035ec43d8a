  $ bspemu run examples/ranks.raw --nodes ''
  error: invalid value '' for '--nodes <N>': cannot parse integer from empty string (stderr)
   (stderr)
  For more information, try '--help'. (stderr)
  [1]
