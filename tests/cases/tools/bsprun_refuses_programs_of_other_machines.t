An ELF file that is of another machine, or was not linked, is refused with what makes a program of it; and so is a folder that is none.

  $ { printf '\177ELF\002\001\001'; head -c 9 /dev/zero; printf '\002\000\076\000'; head -c 44 /dev/zero; } > other
  $ bsprun other
  bsprun: other was compiled for another machine, and nodes have the instructions of RISC-V with 32 bits: compile its sources by bspcc (stderr)
  [1]
  $ bspgdb --dialogue other </dev/null
  bspgdb: other was compiled for another machine, and nodes have the instructions of RISC-V with 32 bits: compile its sources by bspcc (stderr)
  [1]
  $ { printf '\177ELF\001\001\001'; head -c 9 /dev/zero; printf '\001\000\363\000'; head -c 32 /dev/zero; } > part.o
  $ bsprun part.o
  bsprun: part.o is an object, which is not linked: bspcc -o PROGRAM.elf makes a program of it (stderr)
  [1]
  $ bsprun --out /dev/null examples/ranks.elf
  bsprun: --out needs a folder, and /dev/null is not one (stderr)
  [1]
