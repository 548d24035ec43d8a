  $ bspemu run examples/ranks.elf --nodes 3 --counts counts.csv > /dev/full
  bspemu: write failed (stderr)
  [6]
  $ wc -c < counts.csv
  0
