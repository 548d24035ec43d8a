Wants: riscv64-unknown-elf-gcc riscv64-unknown-elf-ld

A -L at the end, without a folder, is left to GCC: the message is that of the library that is missing.

  $ printf 'int main(void) { return 0; }\n' > main.c
  $ timeout 60 bspcc -o main.elf main.c -lno_such_library -L 2>&1 | grep -o 'cannot find -lno_such_library'
  cannot find -lno_such_library
