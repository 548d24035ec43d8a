  $ printf '.word 0x023170d3 # fadd.d f1,f2,f3\n' >text.s
  $ bspemu asm text.s image
  $ at-a-terminal "$REPO"/bspemu run image
  bspemu: a node was stopped before it ended; --report tells which, and why (stderr)
  [2]
  $ printf '\004' | dd of=image bs=1 seek=36 conv=notrunc status=none
  $ at-a-terminal "$REPO"/bspemu run image --limit 100
  bspemu: a node was stopped before it ended; --report tells which, and why (stderr)
  bspemu: the program was compiled for floating point, and the nodes have no units for it: give --float (stderr)
  [2]
  $ at-a-terminal "$REPO"/bspemu run --float image
  bspemu: a node was stopped before it ended; --report tells which, and why (stderr)
  [2]

A script is told no more than what it has to give. What the program writes itself, and the status, are as they are.

  $ "$REPO"/bspemu run image --limit 100
  bspemu: the program was compiled for floating point, and the nodes have no units for it: give --float (stderr)
  [2]
  $ "$REPO"/bspemu run --report image
  superstep 0: w 1 h 0 m 0 last
  total 1
  rank 0 stopped: fault IllegalInstruction
  bspemu: the program was compiled for floating point, and the nodes have no units for it: give --float (stderr)
  [2]
  $ bspemu run --report image
  superstep 0: w 1 h 0 m 0 last
  total 1
  rank 0 stopped: fault IllegalInstruction
  [2]
  $ "$REPO"/bspemu run image --report 2>&-
  superstep 0: w 1 h 0 m 0 last
  total 1
  rank 0 stopped: fault IllegalInstruction
  [2]
  $ "$REPO"/bspemu run image --float
  [2]
  $ echo go | "$REPO"/bspemu debug image
  rank 0 stopped: fault IllegalInstruction

Beside a report, too; and what comes by a pipe is left to the program.

  $ at-a-terminal "$REPO"/bspemu run --report image --limit 100
  superstep 0: w 1 h 0 m 0 last
  total 1
  rank 0 stopped: fault IllegalInstruction
  bspemu: the program was compiled for floating point, and the nodes have no units for it: give --float (stderr)
  [2]
  $ at-a-terminal "$REPO"/bspemu run --report --float image
  superstep 0: w 2 h 0 m 0 last
  total 2
  rank 0 stopped: fault IllegalInstruction
  [2]
  $ mkfifo pipe
  $ cat image >pipe & at-a-terminal "$REPO"/bspemu run --report pipe
  superstep 0: w 1 h 0 m 0 last
  total 1
  rank 0 stopped: fault IllegalInstruction
  [2]
