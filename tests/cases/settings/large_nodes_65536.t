A large machine may have 65,536 nodes, the last of which is rank 65,535.

  $ cat > program.s <<'END'
  > # Each rank but 65,535 ends; that one writes a line.
  >     li    a7, 3             # pid()
  >     ecall
  >     li    t0, 65535
  >     bne   a0, t0, over
  >     la    a0, text
  >     li    a1, 5
  >     li    a7, 17            # write(text, 5)
  >     ecall
  > over:
  >     li    a7, 1             # end()
  >     ecall
  > text:
  >     .ascii "last\n"
  > END
  $ bspemu run program.s --format asm --nodes 65536 --memory 4096 --large --report
  last
  superstep 0: w 12 h 0 m 0 last
  total 12
  ended
