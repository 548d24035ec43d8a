A value that begins as options do is taken behind `=`, and where it was taken for an option the refusal says so.

  $ bspsweep --sbatch --time=5 examples/ranks.elf
  bspsweep: argument --sbatch: expected one argument; bspsweep --help lists the options (stderr)
  bspsweep: --time=5 begins as options do: if it is the value, give it as --sbatch=--time=5 (stderr)
  [1]
  $ bspplot costs.csv --title '-x y'
  bspplot: costs.csv: No such file or directory (stderr)
  [1]
  $ bspplot costs.csv --title "-x'y" --costs c.svg
  bspplot: argument --title: expected one argument; bspplot --help lists the options (stderr)
  bspplot: -x'y begins as options do: if it is the value, give it as '--title=-x'"'"'y' (stderr)
  [1]
  $ bspsweep --sbatch --nodes 2 examples/ranks.elf
  bspsweep: argument --sbatch: expected one argument; bspsweep --help lists the options (stderr)
  [1]
  $ bsprun --input
  bsprun: argument --input: expected one argument; bsprun --help lists the options (stderr)
  [1]
