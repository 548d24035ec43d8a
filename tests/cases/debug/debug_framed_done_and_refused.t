  $ bspemu debug examples/ranks.raw --format raw --nodes 3 --framed <<'END'
  > step 1 3
  > bytes 1 0 40
  > step 3 1
  > bytes 1 1048575 2
  > clear 1 8
  > phase
  > turn
  > step 1 1
  > costs
  > output
  > END
  done 1
  moved 3
  done 3
  93 08 30 00 73 00 00 00 13 05 05 03 23 20 a0 10
  13 05 00 10 93 05 10 00 93 08 10 01 73 00 00 00
  93 08 10 00 73 00 00 00
  refused 1
  refused: BadRank
  refused 1
  refused: BadRange
  refused 1
  refused: NoSuchBreak
  done 1
  moved 27
  done 1
  ended
  refused 1
  refused: Over
  done 2
  superstep 0: w 10 h 0 m 0 last
  total 10
  done 1
  012
