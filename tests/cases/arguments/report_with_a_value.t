  $ bspemu run examples/ranks.raw --report=yes
  error: unexpected value 'yes' for '--report' found; no more were expected (stderr)
   (stderr)
  Usage: bspemu run --report <IMAGE> (stderr)
   (stderr)
  For more information, try '--help'. (stderr)
  [1]
