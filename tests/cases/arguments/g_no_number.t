  $ bspemu run examples/ranks.raw --g x
  error: invalid value 'x' for '--g <TICKS>': invalid digit found in string (stderr)
   (stderr)
  For more information, try '--help'. (stderr)
  [1]
