What stands behind the program is for its main. An option of bsprun there is told, but where it stands in front of the program too.
  $ bsprun examples/c/psum.elf -n 2 --summary 3
  rank 0: 0 1 3 6 10 15 21 28
  bsprun: -n 2 after PROGRAM is an argument of the program (stderr)
  bsprun: --summary after PROGRAM is an argument of the program (stderr)
  $ bsprun -n 1 examples/c/psum.elf --nodes=2 -x 3
  rank 0: 0 1 3 6 10 15 21 28
  $ bsprun examples/c/psum.elf -DN=5 -lm -O2 -x -D
  rank 0: 0 1 3 6 10 15 21 28
  bsprun: -DN=5 after PROGRAM is an argument of the program (stderr)
  bsprun: -lm after PROGRAM is an argument of the program (stderr)
  bsprun: -O2 after PROGRAM is an argument of the program (stderr)
  bsprun: -D after PROGRAM is an argument of the program (stderr)
  $ bsprun examples/c/psum.elf -Ofast -length -DN-5 -Werror-rate
  rank 0: 0 1 3 6 10 15 21 28
