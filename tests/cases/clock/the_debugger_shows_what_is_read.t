A clock that is read after one step shows 1; without clocks the same step is at fault.

  $ printf 'step 0 2\nregs 0\n' | bspemu debug programs/clocks.s --format asm --clock | grep -o 'state.*\|x1[01]=........'
  state running
  x10=00000001
  x11=00000000
  $ printf 'step 0 2\nregs 0\n' | bspemu debug programs/clocks.s --format asm | grep -o 'state.*\|x1[01]=........'
  state fault UnknownCall
  x10=00000000
  x11=00000000
