  $ cat > numbers.txt <<'END'
  > 4 5 3 9 -1 12 8 8 0 44 2 7 31 6 10 1 99 17
  > END
  $ bspemu run "$REPO"/tests/tools/c/found/psrs.elf --float --nodes 4 --report --input numbers.txt --ledger 1
  -1
  0
  1
  2
  3
  5
  6
  7
  8
  8
  9
  10
  12
  17
  31
  44
  99
  superstep 0: w 11601 h 0 turned
  superstep 1: w 84 h 16 turned
  superstep 2: w 264 h 0 turned
  superstep 3: w 95 h 68 turned
  superstep 4: w 660 h 64 turned
  superstep 5: w 1669 h 20 turned
  superstep 6: w 2325 h 0 last
  total 16866
  ended
