A rank is refused that there is not, and any after the outcome; a number that is too great, and words too few or too many, are of no line.
Only a framed session has the line.

  $ bspemu debug examples/ranks.raw --format raw --nodes 3 --framed <<'END'
  > go 3 1
  > go 4294967295 18446744073709551615
  > go 4294967296 1
  > go 0 18446744073709551616
  > go 0
  > go 0 x
  > go x 1
  > go 0 1 1
  > go 0 -1
  > Go 0 1
  > go superstep 1
  > go
  > go 0 1
  > go 3 1
  > END
  refused 1
  refused: BadRank
  refused 1
  refused: BadRank
  refused 1
  refused: BadCommand
  refused 1
  refused: BadCommand
  refused 1
  refused: BadCommand
  refused 1
  refused: BadCommand
  refused 1
  refused: BadCommand
  refused 1
  refused: BadCommand
  refused 1
  refused: BadCommand
  refused 1
  refused: BadCommand
  refused 1
  refused: BadCommand
  done 1
  ended
  refused 1
  refused: Over
  refused 1
  refused: BadRank
  $ bspemu debug examples/ranks.raw --format raw --nodes 3 --interactive <<'END'
  > go 0 1
  > END
  refused: BadCommand: the line is go, or with --framed go RANK COUNT
  $ bspemu debug examples/ranks.raw --format raw --nodes 3 <<'END'
  > go 0 1
  > go
  > END
  refused: BadCommand
  ended
