  $ bspemu debug examples/ranks.raw --format raw --nodes 3 --framed <<'END'
  > output 0
  > output 1
  > go
  > output 0
  > output 1
  > output 3
  > output 0x4
  > output 18446744073709551616
  > output 1 1
  > output
  > END
  done 1
  
  refused 1
  refused: BadRange
  done 1
  ended
  done 1
  012
  done 1
  12
  done 1
  
  refused 1
  refused: BadRange
  refused 1
  refused: BadCommand
  refused 1
  refused: BadCommand
  done 1
  012
