Wants: riscv64-unknown-elf-gcc

  $ bspcc --version
  bspcc *.*.* (glob)
  riscv64-unknown-elf-gcc * (glob)
