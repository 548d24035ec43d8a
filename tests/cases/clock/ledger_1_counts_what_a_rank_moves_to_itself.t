In superstep 1 each rank puts 8 bytes to the next one and 8 to itself. By version 1 of the ledger its h is 16, and by version 2 it is 8, or 0 of
one node, to which all of them are its own. So the third readings differ.

  $ for ledger in 1 2; do
  >   bspemu run programs/clocks.s --format asm --nodes 1 --clock --g 1000 --ledger $ledger | od -An -v -w24 -tu8
  >   bspemu run programs/clocks.s --format asm --nodes 2 --clock --g 1000 --ledger $ledger | od -An -v -w24 -tu8
  > done
                      1                   22                16040
                      1                   22                16042
                      1                   24                16042
                      1                   22                   40
                      1                   22                 8042
                      1                   24                 8042
