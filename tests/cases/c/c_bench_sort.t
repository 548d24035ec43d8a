  $ bspemu run bench/c/sort.elf --input bench/c/once.txt --limit 10000000 --report
  16384 numbers sorted 1 times: a0e7e021
  superstep 0: w 1497958 h 0 m 0 last
  total 1497958
  ended
