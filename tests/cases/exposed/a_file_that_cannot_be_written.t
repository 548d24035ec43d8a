The report is whole before anything is written to the file.

  $ bspemu run examples/prefix_sum_put.s --format asm --nodes 2 --report --exposed /dev/full
  1
  3
  superstep 0: w 18 h 0 m 0 turned
  superstep 1: w 12 h 4 m 0 turned
  superstep 2: w 31 h 0 m 0 last
  total 65
  ended
  bspemu: write failed (stderr)
  [6]
