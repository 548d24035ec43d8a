Wants: riscv64-unknown-elf-gcc riscv64-unknown-elf-ld

A program that defines a constant itself is not run with other values of it, and one that has no such name gets a note.

  $ bspsweep --engine plain --folder kept -n 2 --define N=8,32 examples/c/lu.c
  bspsweep: examples/c/lu.c -DN=8 is not run, nor with 1 other choice of its constants (stderr)
  bspsweep: examples/c/lu.c defines N itself: put #ifndef N before that, and #endif behind it (stderr)
  [1]
  $ bspsweep --engine plain --folder kept -n 2 --define N=12 examples/c/lu.c 2>&1 | grep -c note
  0
  [1]
  $ bspsweep --engine plain --folder kept -n 2 --define WIDTH=8,32 --define N=16 examples/c/spread.c 2>&1 >table.csv | grep note
  bspsweep: note: examples/c/spread.c may not use the constant WIDTH: is the name right?
