  $ bspemu run examples/ranks.elf --workers 65 --counts counts.csv
  bspemu: settings refused: BadWorkers (stderr)
  [1]
  $ wc -c < counts.csv
  0
