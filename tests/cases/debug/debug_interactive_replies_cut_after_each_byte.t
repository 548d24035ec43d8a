  $ cat > lines <<'END'
  > break 1 8
  > go
  > step 0 1
  > step 3 1
  > bytes 1 0 2
  > queue 1
  > clear 1 8
  > clear 1 8
  > go
  > costs
  > output
  > 
  > what
  > quit
  > step
  > END
  $ bspemu debug examples/ranks.raw --format raw --nodes 3 --ledger 1 --interactive < lines
  ok
  stopped at rank 1 pc 00000008
  moved 0
  refused: BadRank
  93 08
  count 0 bytes 0
  ok
  refused: NoSuchBreak
  ended
  superstep 0: w 10 h 0 last
  total 10
  012
  refused: BadCommand: there is no such line; help lists the lines
  $ bspemu debug examples/ranks.raw --format raw --nodes 3 --ledger 1 --interactive < lines > whole
  $ for room in $(seq 0 $(($(wc -c < whole) - 1))); do
  >     with-room "$room" bspemu debug examples/ranks.raw --format raw --nodes 3 --ledger 1 --interactive < lines > cut
  >     echo "status $?"
  >     head -c "$room" whole | cmp - cut
  > done 2>&1 | paste -d - - | sort | uniq -c
      215 bspemu: write failed
      215 status 6
