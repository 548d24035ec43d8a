Wants: riscv64-unknown-elf-gcc riscv64-unknown-elf-ld

The library is compiled for one call alone where the disk of what is kept is full, as a compiler here has it that writes nothing there.

  $ mkdir bin kept
  $ cat >bin/riscv64-unknown-elf-gcc <<'END'
  > #!/bin/sh
  > case "$*" in *"-o $XDG_CACHE_HOME"*) echo 'No space left on device' >&2; exit 1 ;; esac
  > PATH=${PATH#*:} exec riscv64-unknown-elf-gcc "$@"
  > END
  $ chmod +x bin/riscv64-unknown-elf-gcc
  $ echo 'int main(void) { return 0; }' >main.c
  $ PATH=$PWD/bin:$PATH XDG_CACHE_HOME=$PWD/kept bspcc --small -o main.elf main.c
  $ ls main.elf kept/bspcc
  main.elf
  
  kept/bspcc:
