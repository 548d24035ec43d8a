Wants: riscv64-unknown-elf-gcc riscv64-unknown-elf-ld picolibc.specs

  $ bsprun -n 2 examples/c/psum.c
  rank 0: 0 1 3 6 10 15 21 28
  rank 1: 36 45 45 46 48 51 55 60
