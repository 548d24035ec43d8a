  $ bsprun
  bsprun: the following arguments are required: PROGRAM; bsprun --help lists the options (stderr)
  [1]
  $ bspgdb
  bspgdb: the following arguments are required: PROGRAM; bspgdb --help lists the options (stderr)
  [1]
  $ bspcc -o
  bspcc: -o needs the name of a file (stderr)
  [1]
  $ bspcc -Wall -o program.elf -lm
  bspcc: there is nothing to compile: name a file, as FILE.c (stderr)
  [1]
