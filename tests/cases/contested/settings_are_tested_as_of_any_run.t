  $ bspemu run examples/ranks.elf --workers 65 --contested contested.csv
  bspemu: settings refused: BadWorkers (stderr)
  [1]
  $ wc -c < contested.csv
  0
