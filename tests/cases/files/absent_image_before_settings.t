  $ bspemu run absent.raw --nodes 0 --format raw
  bspemu: cannot open absent.raw (stderr)
  [6]
