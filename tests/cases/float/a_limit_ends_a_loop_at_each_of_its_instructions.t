Each of the seven instructions of the loop is the last before one of these limits. `go` shows where the node stands then.

  $ for limit in 5000 5001 5002 5003 5004 5005 5006; do
  >   printf 'go\nregs 0\n' >script
  >   bspemu debug programs/a_loop_of_floating_point.s --format asm --float --limit $limit <script | grep -o -e 'pc.*' -e '.* x10=.*' -e '^x12=[0-9a-f]*'
  > done
  pc 00000024 ticks 5000 state exhausted
  x8=00001030 x9=000002ca x10=00000001 x11=00000000
  x12=000002c9
  pc 00000028 ticks 5001 state exhausted
  x8=00001030 x9=000002ca x10=00000001 x11=00000000
  x12=000002ca
  pc 00000010 ticks 5002 state exhausted
  x8=00001030 x9=000002ca x10=00000001 x11=00000000
  x12=000002ca
  pc 00000014 ticks 5003 state exhausted
  x8=00001030 x9=000002cb x10=00000001 x11=00000000
  x12=000002ca
  pc 00000018 ticks 5004 state exhausted
  x8=00001030 x9=000002cb x10=00000001 x11=00000000
  x12=000002ca
  pc 0000001c ticks 5005 state exhausted
  x8=00001030 x9=000002cb x10=00000001 x11=00000000
  x12=000002ca
  pc 00000020 ticks 5006 state exhausted
  x8=00001030 x9=000002cb x10=00000001 x11=00000000
  x12=000002ca

Slices end at each of them too, and so do the slices of a run that counts.

  $ bspemu run programs/a_loop_of_floating_point.s --format asm --float --limit 5003 --report --counts counts
  superstep 0: w 5003 h 0 m 0 last
  total 5003
  rank 0 stopped: exhausted
  [3]
  $ for slice in 1 2 3 5 64 2050 2051 2052 2053; do
  >   bspemu run programs/a_loop_of_floating_point.s --format asm --float --limit 5003 --slice $slice --counts other && cmp counts other
  >   bspemu run programs/a_loop_of_floating_point.s --format asm --float --limit 5003 --slice $slice --workers 2 --nodes 2 --report
  > done 2>&1 | sort | uniq -c
        9 rank 0 stopped: exhausted
        9 superstep 0: w 5003 h 0 m 0 last
        9 total 5003
