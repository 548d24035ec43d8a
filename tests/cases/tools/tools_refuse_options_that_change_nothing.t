An option that would change nothing is refused by its name.

  $ bspsweep --sbatch=--time=5 examples/ranks.elf
  bspsweep: --sbatch is for Slurm: add --engine slurm, or leave it out (stderr)
  [1]
  $ bspsweep --interpolate linear examples/ranks.elf
  bspsweep: --interpolate is for the prices of --machine: add --machine, or leave it out (stderr)
  [1]
  $ bspsweep --hosts one --script examples/ranks.elf
  bspsweep: --hosts is for GNU parallel, and --script writes a script for Slurm: leave one of them out (stderr)
  [1]
  $ bspsweep --stack 64K examples/ranks.elf
  bspsweep: --stack is for programs in C, and examples/ranks.elf is compiled already: give --stack to bspcc (stderr)
  [1]
  $ bspsweep --engine slurm '--sbatch=--time=5 -p x' --script examples/ranks.elf | sed -n 's|/[^ ]*/lists/[^ ]*|LIST|p'
  start it:   sbatch --time=5 -p x LIST
