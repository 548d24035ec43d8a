  $ printf 'nodes\nwhere\n\nbytes 1 0 20\nwhat\ngo\noutput\nquit\n' > lines
  $ bspemu debug examples/ranks.raw --format raw --nodes 3 --framed < lines > whole
  $ for room in $(seq 0 $(($(wc -c < whole) - 1))); do
  >     with-room "$room" bspemu debug examples/ranks.raw --format raw --nodes 3 --framed < lines > cut
  >     echo "status $?"
  >     head -c "$room" whole | cmp - cut
  > done 2>&1 | paste -d - - | sort | uniq -c
      331 bspemu: write failed
      331 status 6
