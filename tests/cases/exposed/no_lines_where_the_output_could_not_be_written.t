  $ bspemu run examples/ranks.elf --nodes 3 --exposed exposed.csv > /dev/full
  bspemu: write failed (stderr)
  [6]
  $ wc -c < exposed.csv
  0
