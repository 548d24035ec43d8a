  $ cat > program.s <<'END'
  > # Rank 0 stores a word over the edge of two pages, which it shares with rank 1 until then.
  >     li    a7, 3             # pid()
  >     ecall
  >     bnez  a0, end
  >     li    t0, 0xFFE
  >     li    t1, 0x44332211
  >     sw    t1, 0(t0)
  > end:
  >     li    a7, 1             # end()
  >     ecall
  > END
  $ bspemu debug program.s --format asm --nodes 2 <<'END'
  > phase
  > bytes 0 0xffc 8
  > bytes 1 0xffc 8
  > turn
  > END
  moved 15
  00 00 11 22 33 44 00 00
  00 00 00 00 00 00 00 00
  ended
