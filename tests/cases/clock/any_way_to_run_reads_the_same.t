Workers, slices, live output, a profile, counts, contested bytes, exposed bytes and the debugger change no clock.

  $ bspemu run programs/clocks.s --format asm --nodes 5 --clock --g 3 --l 100 >one
  $ for way in '--workers 3' '--workers 5 --slice 1' '--live --workers 2 --slice 3' '--profile p' '--counts c' '--contested d' '--exposed e'; do
  >   bspemu run programs/clocks.s --format asm --nodes 5 --clock --g 3 --l 100 $way | cmp - one && echo same
  > done
  same
  same
  same
  same
  same
  same
  same
  $ for go in 'go' 'break superstep 1\nbreak 1 8\ngo\ngo\ngo' 'step 4 9\nstep 1 1\nphase\nturn\nstep 0 3\nphase\nturn\ngo'; do
  >   printf "$go\nbytes 0 0x800 24\n" |
  >     bspemu debug programs/clocks.s --format asm --nodes 5 --clock --g 3 --l 100 | tail -n 2
  > done
  01 00 00 00 00 00 00 00 7a 00 00 00 00 00 00 00
  0a 01 00 00 00 00 00 00
  01 00 00 00 00 00 00 00 7a 00 00 00 00 00 00 00
  0a 01 00 00 00 00 00 00
  01 00 00 00 00 00 00 00 7a 00 00 00 00 00 00 00
  0a 01 00 00 00 00 00 00
