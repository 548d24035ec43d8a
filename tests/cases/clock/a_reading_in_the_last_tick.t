A node that reads its clock in its last tick is exhausted, with the answer: two instructions came before it.

  $ printf 'li a7,19\necall\necall\nread: nop\n' >read.s
  $ printf 'phase\nregs 0\n' | bspemu debug read.s --format asm --clock --limit 3 | grep -o 'rank.*\|x1[01]=........'
  rank 0 pc 0000000c ticks 3 state exhausted
  x10=00000002
  x11=00000000
