It may not have a page more.

  $ bspemu run examples/ranks.raw --memory 2147487744 --large --format raw
  bspemu: settings refused: BadMemory (stderr)
  [1]
