  $ bspgdb absent.elf --nodes 2
  bspgdb: --nodes 2 after PROGRAM is an argument of the program (stderr)
  bspgdb: absent.elf: No such file or directory (stderr)
  [1]
