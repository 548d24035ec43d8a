Nothing is run, and so nothing is written, where the result could not be kept.
  $ mkdir folder
  $ bsprun --report folder examples/ranks.elf
  bsprun: folder: Is a directory (stderr)
  [1]
  $ bsprun --profile folder examples/ranks.elf
  bsprun: folder: Is a directory (stderr)
  [1]
  $ bsprun --report missing/costs.csv examples/ranks.elf
  bsprun: missing/costs.csv: No such file or directory (stderr)
  [1]
  $ bspsweep --engine plain --folder kept -o missing/table.csv examples/ranks.elf
  bspsweep: missing/table.csv: No such file or directory (stderr)
  [1]
  $ ls
  bench
  examples
  folder
  images
  programs
