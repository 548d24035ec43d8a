  $ BSPEMU=/missing/bspemu bsprun examples/ranks.elf
  bsprun: BSPEMU in the environment names /missing/bspemu, which is not a program (stderr)
  [1]
  $ BSPEMU=/missing/bspemu bspsweep --folder kept examples/ranks.elf
  bspsweep: BSPEMU in the environment names /missing/bspemu, which is not a program (stderr)
  [1]
