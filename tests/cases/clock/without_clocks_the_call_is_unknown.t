  $ bspemu run programs/clocks.s --format asm --nodes 2 --report
  superstep 0: w 2 h 0 m 0 last
  total 2
  rank 0 stopped: fault UnknownCall
  [2]
  $ printf 'li a7,20\necall\n' >unknown.s
  $ bspemu run unknown.s --format asm --clock --report
  superstep 0: w 2 h 0 m 0 last
  total 2
  rank 0 stopped: fault UnknownCall
  [2]
