Wants: riscv64-unknown-elf-gcc riscv64-unknown-elf-ld

  $ printf '#include <stdio.h>\nint main(void) { return fopen("data.txt", "r") == NULL; }\n' >f.c && echo 77 >data.txt
  $ bsprun --page run.html f.c
  bsprun: the program may open files, and the page has none for it: give those that it reads by --file (stderr)
  $ bsprun --page run.html --file data.txt f.c
