Of an instruction of floating point that has a rounding mode which there is not, bsprun names the mode: one in the instruction, and one in frm.

  $ printf '.word 0x0010d153 # fadd.s f2,f1,f1, in mode 5\n' > reserved.s
  $ bsprun --float reserved.s
  bsprun: rank 0 stopped: fault IllegalInstruction (stderr)
  rank 0 stopped in superstep 0, after 1 instructions: fault IllegalInstruction (stderr)
    at   reserved.s:1 (stderr)
    why  the word at 0x0 is fadd.s in the rounding mode 5: the modes are 0 to 4 (stderr)
    gdb  bspgdb --float reserved.s -- -ex continue (stderr)
  [2]
  $ printf 'csrrwi x0, frm, 6\nfmadd.d f1, f2, f3, f4\n' > dynamic.s
  $ bsprun dynamic.s
  bsprun: rank 0 stopped: fault IllegalInstruction (stderr)
  rank 0 stopped in superstep 0, after 2 instructions: fault IllegalInstruction (stderr)
    at   dynamic.s:2 (stderr)
    why  the word at 0x4 is fmadd.d in the rounding mode of frm, which is 6: the modes are 0 to 4 (stderr)
    gdb  bspgdb dynamic.s -- -ex continue (stderr)
  [2]
  $ printf '.word 0xffffffff\n' > none.s
  $ bsprun --float none.s
  bsprun: rank 0 stopped: fault IllegalInstruction (stderr)
  rank 0 stopped in superstep 0, after 1 instructions: fault IllegalInstruction (stderr)
    at   none.s:1 (stderr)
    why  the word at 0x0 is not an instruction that a node has (stderr)
    gdb  bspgdb --float none.s -- -ex continue (stderr)
  [2]
