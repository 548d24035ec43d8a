  $ in-turns bspemu debug examples/ranks.raw --framed < /dev/null
  bspemu: image refused: NotElf (stderr)
  [1]
