  $ in-turns bspemu debug examples/ranks.raw --interactive < /dev/null
  bspemu: image refused: NotElf (stderr)
  [1]
