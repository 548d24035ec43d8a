  $ cat > program.s <<'END'
  > # Rank 0 sends a message to itself and one to rank 1; then each writes the message that it received.
  >         li    a7, 3           # pid()
  >         ecall
  >         bnez  a0, wait
  >         li    a0, 0
  >         li    a1, 0
  >         la    a2, own
  >         li    a3, 3
  >         li    a7, 12          # send(0, 0, own, 3)
  >         ecall
  >         li    a0, 1
  >         li    a1, 0
  >         la    a2, over
  >         li    a3, 2
  >         li    a7, 12          # send(1, 0, over, 2)
  >         ecall
  > wait:   li    a7, 4           # sync()
  >         ecall
  >         li    a0, 0x1000
  >         li    a1, 8
  >         li    a7, 15          # move(0x1000, 8)
  >         ecall
  >         li    a0, 0x1000
  >         li    a1, 3
  >         li    a7, 17          # write(0x1000, 3)
  >         ecall
  >         li    a7, 1           # end()
  >         ecall
  > own:    .ascii "own"
  > over:   .ascii "to"
  > END
  $ bspemu run program.s --format asm --nodes 2 --report
  ownto\x00superstep 0: w 19 h 2 m 1 turned (esc)
  superstep 1: w 12 h 0 m 0 last
  total 33
  ended
  $ bspemu run program.s --format asm --nodes 2 --report --ledger 1
  ownto\x00superstep 0: w 19 h 5 turned (esc)
  superstep 1: w 12 h 0 last
  total 36
  ended
