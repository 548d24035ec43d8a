  $ bspemu run bench/c/matrix.elf --input bench/c/once.txt --limit 10000000 --report
  the trace of 1 products of 64 rows: 88a8a776
  superstep 0: w 1948353 h 0 m 0 last
  total 1948353
  ended
