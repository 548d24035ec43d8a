  $ bspemu run examples/ranks.raw --g=-1
  error: invalid value '-1' for '--g <TICKS>': -1 is not in 0..=4294967295 (stderr)
   (stderr)
  For more information, try '--help'. (stderr)
  [1]
