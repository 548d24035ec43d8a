  $ bspemu run examples/c/letters.elf --float --nodes 4 --report --input examples/c/lines.txt --ledger 1
  a: 23, from 4 ranks
  b: 1, from 1 ranks
  c: 8, from 4 ranks
  d: 7, from 3 ranks
  e: 27, from 4 ranks
  f: 3, from 3 ranks
  g: 1, from 1 ranks
  h: 14, from 4 ranks
  i: 9, from 4 ranks
  j: 1, from 1 ranks
  k: 5, from 4 ranks
  l: 8, from 3 ranks
  m: 2, from 1 ranks
  n: 19, from 4 ranks
  o: 14, from 3 ranks
  p: 1, from 1 ranks
  r: 10, from 4 ranks
  s: 18, from 4 ranks
  t: 28, from 4 ranks
  u: 6, from 4 ranks
  v: 2, from 2 ranks
  w: 4, from 3 ranks
  y: 1, from 1 ranks
  superstep 0: w 21104 h 0 turned
  superstep 1: w 509 h 100 turned
  superstep 2: w 10547 h 0 last
  total 32260
  ended
