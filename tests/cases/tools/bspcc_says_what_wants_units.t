Wants: riscv64-unknown-elf-gcc riscv64-unknown-elf-ld picolibc.specs

A mode of rounding that nodes without units of floating point do not have is told behind what GCC says; another name that is not declared is not.

  $ last() { bspcc -c "$@" 2>&1 | tail -n 1; }
  $ printf '#include <fenv.h>\nint main(void) { return fesetround(FE_UPWARD); }\n' > mode.c
  $ last -march=rv32imc mode.c
  bspcc: FE_UPWARD is of units of floating point, which -march=rv32imc and -mabi=ilp32 do without: leave these out, or ask by #ifdef
  $ last -mabi=ilp32 mode.c
  bspcc: FE_UPWARD is of units of floating point, which -march=rv32imc and -mabi=ilp32 do without: leave these out, or ask by #ifdef
  $ last mode.c
  $ sed -i s/FE_UPWARD/UP/ mode.c && last -march=rv32imc mode.c | grep bspcc
  [1]
