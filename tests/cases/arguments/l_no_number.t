  $ bspemu run examples/ranks.raw --l x
  error: invalid value 'x' for '--l <TICKS>': invalid digit found in string (stderr)
   (stderr)
  For more information, try '--help'. (stderr)
  [1]
