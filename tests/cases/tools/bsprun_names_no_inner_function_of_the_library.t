Wants: riscv64-unknown-elf-gcc riscv64-unknown-elf-ld

  $ printf 'int main(void) { return 5; }\n' >five.c && bspcc --small -o five.elf five.c && bsprun five.elf
  bsp: rank 0: the program ended with status 5* (stderr) (glob)
  bsprun: rank 0 stopped: aborted (stderr)
  rank 0 stopped in superstep 0, after * instructions: aborted (stderr) (glob)
    at   the end of main (stderr)
    gdb  bspgdb five.elf -- -ex continue (stderr)
  bsprun: run again with --strict to look for the usual mistakes (stderr)
  [2]
