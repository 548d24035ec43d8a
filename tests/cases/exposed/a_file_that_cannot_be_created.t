  $ bspemu run examples/ranks.elf --exposed absent/exposed.csv
  bspemu: cannot open absent/exposed.csv (stderr)
  [6]
