  $ bspemu run examples/ranks.elf --workers 65 --exposed exposed.csv
  bspemu: settings refused: BadWorkers (stderr)
  [1]
  $ wc -c < exposed.csv
  0
