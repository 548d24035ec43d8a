  $ bspsweep --engine plain --folder kept -o table.csv examples/ranks.elf
  bspsweep: 1 of 1 run done, 0 left, * s; the slowest took * s: examples/ranks.elf, 1 node (stderr) (glob)
  $ bspsweep --engine plain --folder kept -o table.csv examples/ranks.elf
  bspsweep: 1 of 1 run was cached (stderr)
