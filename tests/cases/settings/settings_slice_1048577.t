  $ bspemu run examples/ranks.raw --format raw --slice 1048577
  bspemu: settings refused: BadSlice (stderr)
  [1]
