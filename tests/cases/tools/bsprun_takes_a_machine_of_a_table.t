A machine gives nodes, prices and rate, and what stands behind it on the command line counts. g is that of a byte, of eight in a word.

  $ bsprun --machine t3e-2 --report - --summary examples/ranks.elf 2>&1
  01superstep 0: w 10 h 0 m 0 last
  total 496
  ended
  bsprun: 1 superstep, w 10, h 0, m 0 in all, total 496; ended
    1.41714e-05 s, at 35,000,000 instructions a second
    1 superstep up to the end of the program: w 10, h 0, cost 496, 100.0 % of the total
  $ bsprun --machine t3e-2 -n 1 --l 5 --report - examples/ranks.elf 2>&1
  0superstep 0: w 10 h 0 m 0 last
  total 15
  ended
  $ echo 'mine 3 1e6 8 100 8 measured by ourselves' >own.txt
  $ BSP_MACHINES=own.txt bsprun --machine mine --summary examples/ranks.elf 2>&1
  012bsprun: 1 superstep, w 10, h 0, m 0 in all, total 110; ended
    0.00011 s, at 1,000,000 instructions a second
    1 superstep up to the end of the program: w 10, h 0, cost 110, 100.0 % of the total
