  $ bspemu debug examples/messages.s --format asm --nodes 4 --framed <<'END'
  > costs 0
  > costs 1
  > go
  > costs
  > costs 0
  > costs 1
  > costs 2
  > costs 3
  > costs 4
  > END
  done 1
  total 0
  refused 1
  refused: BadRange
  done 1
  ended
  done 4
  superstep 0: w 14 h 0 m 0 turned
  superstep 1: w 28 h 24 m 2 turned
  superstep 2: w 173 h 0 m 0 last
  total 239
  done 4
  superstep 0: w 14 h 0 m 0 turned
  superstep 1: w 28 h 24 m 2 turned
  superstep 2: w 173 h 0 m 0 last
  total 239
  done 3
  superstep 1: w 28 h 24 m 2 turned
  superstep 2: w 173 h 0 m 0 last
  total 239
  done 2
  superstep 2: w 173 h 0 m 0 last
  total 239
  done 1
  total 239
  refused 1
  refused: BadRange
  $ printf 'go\ncosts 1\n' | bspemu debug examples/messages.s --format asm --nodes 4 --ledger 1 --g 2 --l 3 --framed
  done 1
  ended
  done 3
  superstep 1: w 28 h 24 turned
  superstep 2: w 173 h 0 last
  total 272
