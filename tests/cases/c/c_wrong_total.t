  $ bspemu run examples/c/wrong_total.elf --float --nodes 4
  the total is 673059850
