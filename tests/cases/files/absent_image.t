  $ bspemu run absent.raw --format raw
  bspemu: cannot open absent.raw (stderr)
  [6]
