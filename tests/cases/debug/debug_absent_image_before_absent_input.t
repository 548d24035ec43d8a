  $ bspemu debug absent.raw --input absent.txt --format raw
  bspemu: cannot open absent.raw (stderr)
  [6]
