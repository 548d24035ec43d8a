Before a session with the debugger begins, since its status says nothing of nodes. A framed session is for programs.

  $ printf '.word 0x023170d3 # fadd.d f1,f2,f3\n' >text.s
  $ bspemu asm text.s image
  $ echo go | at-a-terminal "$REPO"/bspemu debug image
  rank 0 stopped: fault IllegalInstruction
  $ printf '\004' | dd of=image bs=1 seek=36 conv=notrunc status=none
  $ echo go | at-a-terminal "$REPO"/bspemu debug image
  rank 0 stopped: fault IllegalInstruction
  bspemu: the program was compiled for floating point, and the nodes have no units for it: give --float (stderr)
  $ echo go | at-a-terminal "$REPO"/bspemu debug --float image
  rank 0 stopped: fault IllegalInstruction
  $ echo go | at-a-terminal "$REPO"/bspemu debug --framed image
  done 1
  rank 0 stopped: fault IllegalInstruction
  $ at-a-terminal "$REPO"/bspemu debug image --help | sed -n 1p
  Debug a program: execute the commands on standard input, and write a reply to each
