  $ bspemu run examples/ranks.elf --nodes 3 --contested contested.csv > /dev/full
  bspemu: write failed (stderr)
  [6]
  $ wc -c < contested.csv
  0
