  $ bspemu run bench/c/checksum.elf --input bench/c/once.txt --limit 10000000 --report
  the CRC-32 of 65536 bytes, 1 times: 9f2ba2f0
  superstep 0: w 1260865 h 0 m 0 last
  total 1260865
  ended
