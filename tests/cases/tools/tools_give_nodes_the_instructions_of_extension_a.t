Wants: riscv64-unknown-elf-gcc riscv64-unknown-elf-ld

What bspemu asm makes does not say that it wants the instructions of extension A. bsprun says it where a rank stops, with the instruction, and
--atomic gives the nodes these.

  $ cat > seven.s <<'END'
  >     li       t1, 64
  >     li       t0, 55
  >     .word    0x00532e2f # amoadd.w t3,t0,(t1)
  >     mv       a0, t1
  >     li       a1, 1
  >     li       a7, 17
  >     ecall
  >     li       a7, 1
  >     ecall
  > END
  $ bspemu asm seven.s seven.elf
  $ bsprun seven.elf
  bsprun: rank 0 stopped: fault IllegalInstruction (stderr)
  rank 0 stopped in superstep 0, after 3 instructions: fault IllegalInstruction (stderr)
    at   address 0x8 (stderr)
    why  the word at 0x8 is amoadd.w, an instruction of extension A, which these nodes do not have: run with --atomic (stderr)
    gdb  bspgdb seven.elf -- -ex continue (stderr)
  bsprun: run again with --strict to look for the usual mistakes (stderr)
  [2]
  $ bsprun --atomic seven.elf
  7 (no-eol)

A text that has their statements gets them without the option.

  $ sed 's/\.word    0x00532e2f #//' seven.s > named.s
  $ bsprun named.s
  7 (no-eol)

A misaligned address is told with the instruction.

  $ sed 's/64/66/' seven.s > odd.s
  $ bsprun --atomic odd.s
  bsprun: rank 0 stopped: fault Misaligned (stderr)
  rank 0 stopped in superstep 0, after 3 instructions: fault Misaligned (stderr)
    at   odd.s:3 (stderr)
    why  amoadd.w accesses a word, but its address 0x42 is not a multiple of 4 (stderr)
    gdb  bspgdb --atomic odd.s -- -ex continue (stderr)
  [2]

A program that was compiled for them says it itself.

  $ printf '#include <stdatomic.h>\nstatic atomic_int sum = 40;\nint main(void) { return atomic_fetch_add(&sum, 2) != 40; }\n' > sum.c
  $ bspcc --small -march=rv32imac -o sum.elf sum.c
  $ bsprun sum.elf
