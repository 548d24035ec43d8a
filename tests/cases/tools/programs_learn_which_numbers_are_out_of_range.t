Wants: riscv64-unknown-elf-gcc riscv64-unknown-elf-ld picolibc.specs

errno behind strtod says that a number is too large, or so small that digits of it are lost, up to all of them; of a 0 it does not.

  $ cat >range.c <<'END'
  > #include <errno.h>
  > #include <stdio.h>
  > #include <stdlib.h>
  > int main(int count, char **words)
  > {
  >     for (int i = 1; i < count; i++) {
  >         errno = 0;
  >         double number = strtod(words[i], NULL);
  >         printf("%s %g%s\n", words[i], number, errno == ERANGE ? " ERANGE" : "");
  >     }
  >     return 0;
  > }
  > END
  $ bsprun range.c 1e400 1e-310 1e-400 -.001e-400 0x1p-2000 0 -0.00e-400 0x0.0p-9 0e5 0x 1 inf nan
  1e400 inf ERANGE
  1e-310 1e-310 ERANGE
  1e-400 0 ERANGE
  -.001e-400 -0 ERANGE
  0x1p-2000 0 ERANGE
  0 0
  -0.00e-400 -0
  0x0.0p-9 0
  0e5 0
  0x 0
  1 1
  inf inf
  nan nan
