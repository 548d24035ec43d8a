A large machine has at most 65,536 nodes.

  $ bspemu run examples/ranks.raw --nodes 65537 --large --format raw
  bspemu: settings refused: BadNodes (stderr)
  [1]
