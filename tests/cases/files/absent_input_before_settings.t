  $ bspemu run examples/ranks.raw --nodes 0 --input absent.txt --format raw
  bspemu: cannot open absent.txt (stderr)
  [6]
