  $ bspemu debug examples/ranks.raw --nodes 0 --format raw <<'END'
  > output
  > END
  bspemu: settings refused: BadNodes (stderr)
  [1]
