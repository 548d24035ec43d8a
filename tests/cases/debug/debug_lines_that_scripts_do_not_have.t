  $ printf 'nodes\nwhere\nwhere 1\noutput 0\ncosts 0\nkeep\nback 0\nforget 0\nkept\n' > lines
  $ bspemu debug examples/ranks.raw --format raw --nodes 3 < lines
  refused: BadCommand
  refused: BadCommand
  refused: BadCommand
  refused: BadCommand
  refused: BadCommand
  refused: BadCommand
  refused: BadCommand
  refused: BadCommand
  refused: BadCommand
  $ bspemu debug examples/ranks.raw --format raw --nodes 3 --interactive < lines
  refused: BadCommand: the line is nodes, with --framed alone
  rank 0 pc 00000000 superstep 0 state running
  rank 1 pc 00000000 superstep 0 state running
  rank 2 pc 00000000 superstep 0 state running
  rank 1 pc 00000000 superstep 0 state running
  refused: BadCommand: the line is output, or with --framed output [FROM]
  refused: BadCommand: the line is costs, or with --framed costs [FROM]
  kept 0
  ok
  ok
