Wants: riscv64-unknown-elf-gcc riscv64-unknown-elf-ld

A file whose name begins with a dash is taken by a path, and where it was taken for an option its refusal says so.

  $ cp examples/ranks.elf ./-x.elf
  $ bsprun -n 3 ./-x.elf
  012 (no-eol)
  $ bsprun -n 3 -x.elf
  bsprun: the following arguments are required: PROGRAM; bsprun --help lists the options (stderr)
  bsprun: -x.elf is a file here, and begins as options do: give it as ./-x.elf (stderr)
  [1]
  $ bspgdb --dialogue -n 3 -x.elf
  bspgdb: the following arguments are required: PROGRAM; bspgdb --help lists the options (stderr)
  bspgdb: -x.elf is a file here, and begins as options do: give it as ./-x.elf (stderr)
  [1]
  $ bspsweep --folder kept -n 3 -x.elf
  bspsweep: -x.elf is a file here, and would be an option: give it as ./-x.elf, or rename it (stderr)
  [1]
  $ bspplot --costs costs.svg -x.elf
  bspplot: the following arguments are required: SOURCE; bspplot --help lists the options (stderr)
  bspplot: -x.elf is a file here, and begins as options do: give it as ./-x.elf (stderr)
  [1]
  $ cp ./-x.elf ./-p.c
  $ bsprun -p.c
  bsprun: argument -np/-npes/-p: '.c': the number of nodes is a whole number from 1 to 65536; bsprun --help lists the options (stderr)
  bsprun: -p.c is a file here, and begins as options do: give it as ./-p.c (stderr)
  [1]
  $ bspcc --small -o p.elf -p.c
  bspcc: -p.c is a file here, and would be an option: give it as ./-p.c, or rename it (stderr)
  [1]
  $ bsprun --no-such-option ./-x.elf
  bsprun: unrecognized arguments: --no-such-option; bsprun --help lists the options (stderr)
  [1]
  $ echo 5 >--report=r.csv
  $ bsprun -n 3 --report=r.csv ./-x.elf
  bsprun: --report=r.csv is a file here, and would be an option: give it as ./--report=r.csv, or rename it (stderr)
  [1]
  $ mkdir -- --hosts=none
  $ bspsweep --folder kept -n 3 ./-x.elf --hosts=none
  bspsweep: --hosts=none is a file here, and would be an option: give it as ./--hosts=none, or rename it (stderr)
  [1]
  $ bsprun -n 3 ./-x.elf --report=r.csv
  bsprun: --report=r.csv after PROGRAM is an argument of the program (stderr)
  bsprun: ./-x.elf takes no arguments and no files: it was not built by this bspcc (stderr)
  [1]
  $ printf '  ebreak\n' >-y.s
  $ bsprun -- -y.s 2>&1 | grep gdb
    gdb  bspgdb ./-y.s -- -ex continue
