Wants: riscv64-unknown-elf-gcc riscv64-unknown-elf-ld picolibc.specs

The time of a program is the model's cost over the rate: one million ticks at the end of a superstep are a second of 10^6. A program that
reads no time has no such line, and the emulator alone gives no clock.

  $ cat >time.c <<'END'
  > #include <bsp.h>
  > #include <stdio.h>
  > int main(int argc, char **argv)
  > {
  >     double begin;
  >     bsp_begin(bsp_nprocs());
  >     begin = argc > 1 ? 0.0 : bsp_time();
  >     bsp_sync();
  >     if (bsp_pid() == 0)
  >         printf("%.2f\n", argc > 1 ? 0.0 : bsp_time() - begin);
  >     bsp_end();
  >     return argv[0] == NULL;
  > }
  > END
  $ bsprun -n 2 --l 1000000 --rate 1e6 time.c
  1.00
  bsprun: rank 0, superstep 0: bsp_time returns the cost of the run so far by the model, not the time of this computer: a second is 1,000,000 instructions, a byte of h is 1 (--g), a superstep's end 1000000 (--l); the same on 1 more rank (stderr)
  $ bsprun -n 2 --l 1000000 --rate 1e6 --workers 2 time.c 2>/dev/null
  1.00
  $ bsprun -n 2 --l 1000000 --rate 2e6 time.c 2>/dev/null
  0.50
  $ bsprun -n 2 time.c without
  0.00
  $ bspcc --stack 128K -o time.elf time.c && bspemu run time.elf --float --nodes 2
  0.00
