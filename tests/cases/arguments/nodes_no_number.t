  $ bspemu run examples/ranks.raw --nodes abc
  error: invalid value 'abc' for '--nodes <N>': invalid digit found in string (stderr)
   (stderr)
  For more information, try '--help'. (stderr)
  [1]
