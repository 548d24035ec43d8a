Loads and stores by eights up to the end of the memory: the first past it is a fault, at its address.

  $ printf 'go\nregs 0\n' >script
  $ for stores in 0 1; do
  >   sed "s/STORES/$stores/" programs/loads_up_to_the_end_of_memory.s >loop.s
  >   bspemu run loop.s --format asm --float --memory 24576 --report
  >   bspemu debug loop.s --format asm --float --memory 24576 <script | grep -e '^rank' -e '^x8=' -e '^x16='
  > done
  superstep 0: w 17926 h 0 m 0 last
  total 17926
  rank 0 stopped: fault LoadOutside
  rank 0 stopped: fault LoadOutside
  rank 0 pc 00000014 ticks 17926 state fault LoadOutside
  x8=00006000 x9=00000000 x10=00000000 x11=00000000
  x16=00000000 x17=00000000 x18=00000a01 x19=00000000
  superstep 0: w 15366 h 0 m 0 last
  total 15366
  rank 0 stopped: fault StoreOutside
  rank 0 stopped: fault StoreOutside
  rank 0 pc 0000001c ticks 15366 state fault StoreOutside
  x8=00006000 x9=00000001 x10=00000000 x11=00000000
  x16=00000000 x17=00000000 x18=00000a01 x19=00000000
