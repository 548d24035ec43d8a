Without --float there are no registers of floating point, which is refused behind a bad rank, and by a line that says what gives them, in each
kind of session. With it they can be looked at where the run is over, and go back with all else.

  $ cat > lines <<'END'
  > fregs 3
  > fregs 2
  > fregs
  > fregs 4294967296
  > Fregs 0
  > END
  $ bspemu debug examples/ranks.raw --format raw --nodes 3 < lines
  refused: BadRank
  refused: NoFloatUnit: nodes have one with --float
  refused: BadCommand
  refused: BadCommand
  refused: BadCommand
  $ bspemu debug examples/ranks.raw --format raw --nodes 3 --framed < lines
  refused 1
  refused: BadRank
  refused 1
  refused: NoFloatUnit: nodes have one with --float
  refused 1
  refused: BadCommand
  refused 1
  refused: BadCommand
  refused 1
  refused: BadCommand
  $ bspemu debug examples/ranks.raw --format raw --nodes 3 --interactive < lines
  refused: BadRank
  refused: NoFloatUnit: nodes have one with --float
  refused: BadCommand: the line is fregs RANK
  refused: BadCommand: the line is fregs RANK
  refused: BadCommand: there is no such line; help lists the lines
  $ bspemu debug programs/each_node_has_a_unit_of_its_own.s --format asm --float --nodes 2 --interactive <<'END' | grep -e fcsr -e ft0 -e ^ok -e ^kept -e ^ended
  > keep
  > break superstep 1
  > go
  > fregs 1
  > go
  > fregs 1
  > back 0
  > fregs 1
  > END
  kept 0
  ok
  rank 1 fcsr 00000000 frm 0 flags -
    f0/ft0=0000000000000000   f1/ft1=4020000000000000
  ended
  rank 1 fcsr 00000000 frm 0 flags -
    f0/ft0=0000000000000000   f1/ft1=4020000000000000
  ok
  rank 1 fcsr 00000000 frm 0 flags -
    f0/ft0=0000000000000000   f1/ft1=0000000000000000
