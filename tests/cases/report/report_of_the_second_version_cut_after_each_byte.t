  $ bspemu run examples/ranks.raw --format raw --nodes 3 --report
  012superstep 0: w 10 h 0 m 0 last
  total 10
  ended
  $ bspemu run examples/ranks.raw --format raw --nodes 3 --report > whole
  $ for room in $(seq 0 $(($(wc -c < whole) - 1))); do
  >     with-room "$room" bspemu run examples/ranks.raw --format raw --nodes 3 --report > cut
  >     echo "status $?"
  >     head -c "$room" whole | cmp - cut
  > done 2>&1 | paste -d - - | uniq -c
        1 bspemu: write failed
        1 status 6
        1 bspemu: write failed
        1 status 6
        1 bspemu: write failed
        1 status 6
        1 bspemu: write failed
        1 status 6
        1 bspemu: write failed
        1 status 6
        1 bspemu: write failed
        1 status 6
        1 bspemu: write failed
        1 status 6
        1 bspemu: write failed
        1 status 6
        1 bspemu: write failed
        1 status 6
        1 bspemu: write failed
        1 status 6
        1 bspemu: write failed
        1 status 6
        1 bspemu: write failed
        1 status 6
        1 bspemu: write failed
        1 status 6
        1 bspemu: write failed
        1 status 6
        1 bspemu: write failed
        1 status 6
        1 bspemu: write failed
        1 status 6
        1 bspemu: write failed
        1 status 6
        1 bspemu: write failed
        1 status 6
        1 bspemu: write failed
        1 status 6
        1 bspemu: write failed
        1 status 6
        1 bspemu: write failed
        1 status 6
        1 bspemu: write failed
        1 status 6
        1 bspemu: write failed
        1 status 6
        1 bspemu: write failed
        1 status 6
        1 bspemu: write failed
        1 status 6
        1 bspemu: write failed
        1 status 6
        1 bspemu: write failed
        1 status 6
        1 bspemu: write failed
        1 status 6
        1 bspemu: write failed
        1 status 6
        1 bspemu: write failed
        1 status 6
        1 bspemu: write failed
        1 status 6
        1 bspemu: write failed
        1 status 6
        1 bspemu: write failed
        1 status 6
        1 bspemu: write failed
        1 status 6
        1 bspemu: write failed
        1 status 6
        1 bspemu: write failed
        1 status 6
        1 bspemu: write failed
        1 status 6
        1 bspemu: write failed
        1 status 6
        1 bspemu: write failed
        1 status 6
        1 bspemu: write failed
        1 status 6
        1 bspemu: write failed
        1 status 6
        1 bspemu: write failed
        1 status 6
        1 bspemu: write failed
        1 status 6
        1 bspemu: write failed
        1 status 6
        1 bspemu: write failed
        1 status 6
        1 bspemu: write failed
        1 status 6
        1 bspemu: write failed
        1 status 6
        1 bspemu: write failed
        1 status 6
        1 bspemu: write failed
        1 status 6
