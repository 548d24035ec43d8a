  $ printf 'not read' | bspemu run examples/ranks.raw --input - --format raw
  bspemu: cannot open - (stderr)
  [6]
