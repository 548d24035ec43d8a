Wants: riscv64-unknown-elf-gcc riscv64-unknown-elf-ld picolibc.specs

What GCC does not find with `--small` and the C library has is told behind what GCC says, also of a file that is compiled alone.

  $ last() { bspcc --small "$@" 2>&1 | tail -n 1; }
  $ printf '#include <math.h>\nint main(void) { return sin(0) != 0; }\n' > header.c
  $ last -o header.elf header.c
  bspcc: math.h is in the C library, which --small does without: leave --small out
  $ last -c header.c
  bspcc: math.h is in the C library, which --small does without: leave --small out
  $ printf 'double sin(double x);\nint main(int n, char **words) { return sin(n) != 0; }\n' > function.c
  $ last -o function.elf function.c
  bspcc: sin is in the C library, which --small does without: leave --small out
  $ last -o function.elf function.c -lm
  bspcc: -lm is in the C library, which --small does without: leave one of the two out

Where it does not have it either, that is no matter of `--small`.

  $ printf '#include "own.h"\nint main(void) { return 0; }\n' > own.c
  $ last -o own.elf own.c
  compilation terminated.
  $ printf 'int own(void);\nint main(void) { return own(); }\n' > own.c
  $ last -o own.elf own.c
  collect2: error: ld returned 1 exit status
