  $ bspemu run examples/ranks.raw --nodes 0x3
  error: invalid value '0x3' for '--nodes <N>': invalid digit found in string (stderr)
   (stderr)
  For more information, try '--help'. (stderr)
  [1]
