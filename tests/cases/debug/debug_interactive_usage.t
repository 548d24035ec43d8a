A dialogue says how a line is spelled that is none, by its first word; a framed session and a script say the name alone.

  $ cat > lines <<'END'
  > over
  > over 0 1
  > over x
  > words 0 0
  > words 0 0 4294967296
  > break superstep
  > step 0 1 2
  > regs
  > nodes
  > costs 0
  > Over 0
  > 	over 0
  > END
  $ bspemu debug examples/ranks.raw --format raw --nodes 3 --interactive < lines
  refused: BadCommand: the line is over RANK
  refused: BadCommand: the line is over RANK
  refused: BadCommand: the line is over RANK
  refused: BadCommand: the line is words RANK ADDR N
  refused: BadCommand: the line is words RANK ADDR N
  refused: BadCommand: the line is break RANK ADDR, or break superstep K
  refused: BadCommand: the line is step, or step RANK [COUNT]
  refused: BadCommand: the line is regs RANK
  refused: BadCommand: the line is nodes, with --framed alone
  refused: BadCommand: the line is costs, or with --framed costs [FROM]
  refused: BadCommand: there is no such line; help lists the lines
  refused: BadCommand: there is no such line; help lists the lines
  $ bspemu debug examples/ranks.raw --format raw --nodes 3 < lines | sort | uniq -c
       12 refused: BadCommand
  $ bspemu debug examples/ranks.raw --format raw --nodes 3 --framed < lines | sed -n 1,4p
  refused 1
  refused: BadCommand
  refused 1
  refused: BadCommand
