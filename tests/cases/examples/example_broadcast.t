  $ bspemu run examples/broadcast.s --format asm --nodes 4 --report --ledger 1
  0 right
  1 right
  2 right
  3 right
  superstep 0: w 275 h 0 turned
  superstep 1: w 22 h 768 turned
  superstep 2: w 351 h 0 last
  total 1416
  ended
  $ bspemu run examples/broadcast.s --format asm --nodes 4 --report --g 1 --l 1000 --ledger 1
  0 right
  1 right
  2 right
  3 right
  superstep 0: w 275 h 0 turned
  superstep 1: w 22 h 768 turned
  superstep 2: w 351 h 0 last
  total 4416
  ended
  $ bspemu run examples/broadcast.s --format asm --nodes 4 --report --g 4 --l 1000 --ledger 1
  0 right
  1 right
  2 right
  3 right
  superstep 0: w 275 h 0 turned
  superstep 1: w 22 h 768 turned
  superstep 2: w 351 h 0 last
  total 6720
  ended
  $ bspemu run examples/broadcast.s --format asm --nodes 1 --report --ledger 1
  0 right
  superstep 0: w 275 h 0 turned
  superstep 1: w 10 h 0 turned
  superstep 2: w 351 h 0 last
  total 636
  ended
  $ bspemu run examples/broadcast.s --format asm --nodes 100 --report --ledger 1
  0 right
  1 right
  2 right
  3 right
  4 right
  5 right
  6 right
  7 right
  8 right
  9 right
  10 right
  11 right
  12 right
  13 right
  14 right
  15 right
  16 right
  17 right
  18 right
  19 right
  20 right
  21 right
  22 right
  23 right
  24 right
  25 right
  26 right
  27 right
  28 right
  29 right
  30 right
  31 right
  32 right
  33 right
  34 right
  35 right
  36 right
  37 right
  38 right
  39 right
  40 right
  41 right
  42 right
  43 right
  44 right
  45 right
  46 right
  47 right
  48 right
  49 right
  50 right
  51 right
  52 right
  53 right
  54 right
  55 right
  56 right
  57 right
  58 right
  59 right
  60 right
  61 right
  62 right
  63 right
  64 right
  65 right
  66 right
  67 right
  68 right
  69 right
  70 right
  71 right
  72 right
  73 right
  74 right
  75 right
  76 right
  77 right
  78 right
  79 right
  80 right
  81 right
  82 right
  83 right
  84 right
  85 right
  86 right
  87 right
  88 right
  89 right
  90 right
  91 right
  92 right
  93 right
  94 right
  95 right
  96 right
  97 right
  98 right
  99 right
  superstep 0: w 275 h 0 turned
  superstep 1: w 406 h 25344 turned
  superstep 2: w 357 h 0 last
  total 26382
  ended
