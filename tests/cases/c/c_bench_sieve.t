  $ bspemu run bench/c/sieve.elf --input bench/c/once.txt --limit 10000000 --report
  primes below 200000, counted 1 times: 17984
  superstep 0: w 3398734 h 0 m 0 last
  total 3398734
  ended
