  $ printf '  step   0  1
  >
  > \x20\x20\x20\x20
  > step 0 1\x20
  >
  >
  >  STEP 0 1
  > Step 0 1
  > step\t0 1
  > step 0 1\t
  > step 0 1\r
  > \r
  > \t
  > step 0
  > step 0 1 1
  > step
  > phase 0
  > turn 0
  > go on
  > costs 0
  > output 0
  > regs
  > regs 0 0
  > queue
  > queue 0 0
  > bytes 0 0
  > bytes 0 0 0 0
  > break
  > break 0
  > break 0 0 0
  > break superstep
  > break superstep 0 0
  > break 0 superstep
  > break superstep superstep
  > clear superstep
  > clear 0 superstep
  > step superstep 0
  > bytes superstep 0 0
  > superstep 0
  > st ep 0 1
  > step0 1
  > step,0,1
  > step 0 1;
  > # step 0 1
  > \x00
  > step\x000 1
  > step 0 1\x00
  > \xff\xfe
  > st\xc3\xa9p 0 1
  > step\xc2\xa00 1
  > quit quit
  > QUIT
  >  quits
  > step 0 2
  >   quit\x20\x20
  > step 0 1
  > ' | bspemu debug examples/ranks.raw --format raw --nodes 3
  moved 1
  moved 1
  refused: BadCommand
  refused: BadCommand
  refused: BadCommand
  refused: BadCommand
  refused: BadCommand
  refused: BadCommand
  refused: BadCommand
  refused: BadCommand
  refused: BadCommand
  refused: BadCommand
  refused: BadCommand
  refused: BadCommand
  refused: BadCommand
  refused: BadCommand
  refused: BadCommand
  refused: BadCommand
  refused: BadCommand
  refused: BadCommand
  refused: BadCommand
  refused: BadCommand
  refused: BadCommand
  refused: BadCommand
  refused: BadCommand
  refused: BadCommand
  refused: BadCommand
  refused: BadCommand
  refused: BadCommand
  refused: BadCommand
  refused: BadCommand
  refused: BadCommand
  refused: BadCommand
  refused: BadCommand
  refused: BadCommand
  refused: BadCommand
  refused: BadCommand
  refused: BadCommand
  refused: BadCommand
  refused: BadCommand
  refused: BadCommand
  refused: BadCommand
  refused: BadCommand
  refused: BadCommand
  refused: BadCommand
  refused: BadCommand
  refused: BadCommand
  refused: BadCommand
  refused: BadCommand
  moved 2
