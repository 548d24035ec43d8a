  $ printf x > input
  $ bspemu run examples/ranks.elf --input input --exposed ./input
  bspemu: cannot open ./input (stderr)
  [6]
  $ cat input
  x (no-eol)
