  $ bspemu run bench/c/search.elf --input bench/c/once.txt --limit 10000000 --report
  words found in 1 texts: 242
  superstep 0: w 4895102 h 0 m 0 last
  total 4895102
  ended
