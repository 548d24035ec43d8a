A framed session has the lines of a dialogue, with as many lines of reply as the header says.

  $ bspemu debug examples/ranks.raw --format raw --nodes 3 --framed <<'END'
  > points
  > break 1 8
  > points
  > step
  > step 0
  > over 0
  > over 3
  > words 0 0 5
  > words 0 0 0
  > words 0 0xffffffff 0
  > text 0 0 3
  > list 0 0 2
  > areas 0
  > requests 0
  > requests 3
  > help over
  > over
  > END
  done 0
  done 1
  ok
  done 1
  rank 1 pc 00000008
  done 2
  moved 1
  rank 0 pc 00000004 superstep 0 state running
  done 1
  moved 1
  done 2
  moved 1
  rank 0 pc 0000000c superstep 0 state running
  refused 1
  refused: BadRank
  done 2
  00000000: 00300893 00000073 03050513 10a02023
  00000010: 10000513
  done 0
  refused 1
  refused: BadRange
  done 1
  "\x93\x080"
  done 2
  00000000: 00300893  addi x17,x0,3
  00000004: 00000073  ecall
  done 0
  done 0
  refused 1
  refused: BadRank
  done 1
  over\tRANK\tan instruction of a rank, with all of a function that it calls (esc)
  refused 1
  refused: BadCommand
