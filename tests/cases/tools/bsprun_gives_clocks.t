Nodes have clocks in a run, and where bsprun looks at a run again.

  $ bsprun -n 2 --g 3 --l 100 --format asm programs/clocks.s | od -An -v -w24 -tu8
                      1                  122                  266
                      1                  124                  266
  $ bsprun -n 2 --g 3 --l 100 --format asm --lines programs/clocks.s 2>/dev/null | od -An -v -w24 -tu8
                      1                  122                  266
                      1                  124                  266
