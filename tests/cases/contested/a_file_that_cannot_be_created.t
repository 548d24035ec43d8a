  $ bspemu run examples/ranks.elf --contested absent/contested.csv
  bspemu: cannot open absent/contested.csv (stderr)
  [6]
