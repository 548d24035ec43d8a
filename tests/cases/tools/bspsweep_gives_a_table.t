  $ bspsweep --engine plain --folder kept --nodes 2,4 --prices 1:0,2:10 examples/one_put.s
  program,nodes,g,l,input,args,supersteps,w,h,m,total,outcome
  examples/one_put.s,2,1,0,,,3,20,4,0,24,ended
  examples/one_put.s,4,1,0,,,3,20,4,0,24,ended
  examples/one_put.s,2,2,10,,,3,20,4,0,58,ended
  examples/one_put.s,4,2,10,,,3,20,4,0,58,ended
  bspsweep: 2 of 2 runs done, 0 left, * s; the slowest took * s: examples/one_put.s, * nodes (stderr) (glob)
