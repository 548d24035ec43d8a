  $ cat > program.s <<'END'
  > # The whole memory of 16,777,216 bytes is written, and no bytes after it. One byte more is refused. So standard output has the nine
  > # words of this program (00000513 010005b7 00058593 01100893 00000073 00000593 00000073 00100593 00000073), zeros up to 16,777,216
  > # bytes, and the lines of the report: superstep 0: w 9 h 0 last, total 9, rank 0 stopped: fault TooMuch.
  >     li    a0, 0
  >     li    a1, 0x1000000
  >     li    a7, 17            # write(0, 0x1000000)
  >     ecall
  >     li    a1, 0             # write(0, 0)
  >     ecall
  >     li    a1, 1             # write(0, 1)
  >     ecall
  > END
  $ bspemu run program.s --format asm --memory 16777216 --report --ledger 1 > output
  [2]
  $ sha256sum < output
  0936309b0cfac7adfad92b4a246d8fdf8af040d14f11d8deb50b5683c5dcace3  -
