  $ bspemu run examples/ranks.elf --workers 65 --live
  bspemu: settings refused: BadWorkers (stderr)
  [1]
