  $ bspemu run examples/ranks.raw --input absent.txt --format raw
  bspemu: cannot open absent.txt (stderr)
  [6]
