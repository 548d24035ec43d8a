The first reading is of the one instruction before it. The second one begins at 20 + 100, the cost of superstep 0, and rank 1 has made two
instructions more. The third one begins at 21 + 3 * 8 + 100 more than that.

  $ bspemu run programs/clocks.s --format asm --nodes 2 --clock --g 3 --l 100 --report >all
  $ head -c 48 all | od -An -v -w24 -tu8
                      1                  122                  266
                      1                  124                  266
  $ tail -c +49 all
  superstep 0: w 20 h 0 m 0 turned
  superstep 1: w 21 h 8 m 0 turned
  superstep 2: w 11 h 0 m 0 last
  total 376
  ended
