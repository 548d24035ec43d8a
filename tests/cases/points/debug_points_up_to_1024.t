There are 1023 points of addresses, and one more.

  $ seq -f 'break 0 %g' 0 4 4088 > script
  $ cat >> script <<'END'
  > break superstep 7
  > break 0 4092
  > break superstep 8
  > break 3 0
  > break 0 4088
  > break superstep 7
  > clear 0 4092
  > clear 0 4088
  > break superstep 8
  > break 0 4088
  > clear superstep 7
  > break 0 4088
  > break 0 4092
  > go
  > END
  $ bspemu debug examples/ranks.raw --format raw --nodes 3 < script > answers
  $ uniq -c answers
     1024 ok
        2 refused: TooMany
        1 refused: BadRank
        2 ok
        1 refused: NoSuchBreak
        2 ok
        1 refused: TooMany
        2 ok
        1 refused: TooMany
        1 stopped at rank 0 pc 00000004
  $ tail -n 1 answers
  stopped at rank 0 pc 00000004
