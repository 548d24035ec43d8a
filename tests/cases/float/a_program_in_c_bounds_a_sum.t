Wants: riscv64-unknown-elf-gcc riscv64-unknown-elf-ld picolibc.specs

A quotient in each rounding mode of C, and bounds of the sum of 1/i: all is rounded down for the lower one, and up for the upper one. Each
node has its own part of the sum.

  $ cat >bounds.c <<'END'
  > #include <bsp.h>
  > #include <fenv.h>
  > #include <stdio.h>
  > static volatile double one = 1, three = 3;
  > static double third(int mode)
  > {
  >     fesetround(mode);
  >     volatile double quotient = one / three;
  >     fesetround(FE_TONEAREST);
  >     return quotient;
  > }
  > static double sum(int mode, int first, int last)
  > {
  >     volatile double total = 0;
  >     fesetround(mode);
  >     for (int i = first; i < last; i++)
  >         total = total + one / i;
  >     fesetround(FE_TONEAREST);
  >     return total;
  > }
  > int main(void)
  > {
  >     bsp_begin(bsp_nprocs());
  >     int first = 1 + 500 * bsp_pid();
  >     if (first == 1)
  >         printf("%.20f\n%.20f\n%.20f\n%.20f\n", third(FE_TONEAREST), third(FE_TOWARDZERO), third(FE_DOWNWARD), third(FE_UPWARD));
  >     printf("%.17f %.17f\n", sum(FE_DOWNWARD, first, first + 500), sum(FE_UPWARD, first, first + 500));
  >     bsp_end();
  >     return 0;
  > }
  > END
  $ bsprun -n 2 -march=rv32imfdc bounds.c
  0.33333333333333331483
  0.33333333333333331483
  0.33333333333333331483
  0.33333333333333337034
  6.79282342999034050 6.79282342999076505
  0.69264743055980493 0.69264743055983735
