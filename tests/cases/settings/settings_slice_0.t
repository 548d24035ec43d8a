  $ bspemu run examples/ranks.raw --format raw --slice 0
  bspemu: settings refused: BadSlice (stderr)
  [1]
