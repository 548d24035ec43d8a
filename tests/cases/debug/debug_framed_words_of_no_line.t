  $ bspemu debug examples/ranks.raw --format raw --nodes 3 --framed <<'END'
  > what
  > Nodes
  > nodes 1
  > where x
  > where 1 2
  > where 4294967296
  > where 1 2 3 4
  > costs x
  > quit 0
  > END
  refused 1
  refused: BadCommand
  refused 1
  refused: BadCommand
  refused 1
  refused: BadCommand
  refused 1
  refused: BadCommand
  refused 1
  refused: BadCommand
  refused 1
  refused: BadCommand
  refused 1
  refused: BadCommand
  refused 1
  refused: BadCommand
  refused 1
  refused: BadCommand
