  $ cat > program.s <<'END'
  > # Two nodes end at once.
  >     li    a7, 1             # end()
  >     ecall
  > END
  $ bspemu debug program.s --format asm --memory 4096 --nodes 2 --ledger 1 <<'END'
  > break 2 0
  > break 1 4294967295
  > break 18446744073709551616 0
  > break 2 4294967296
  > clear 2 0
  > clear 1 0
  > clear 1 4294967295
  > step 2 0
  > regs 2
  > queue 2
  > bytes 2 0 4097
  > bytes 2 0 4294967296
  > bytes 1 4096 0
  > bytes 1 4097 0
  > bytes 1 4095 1
  > bytes 1 4095 2
  > bytes 1 0 4097
  > bytes 1 4294967295 1
  > bytes 1 1 4294967295
  > bytes 1 4294967295 4294967295
  > go
  > step 2 1
  > step 1 0
  > step 1 18446744073709551616
  > phase
  > turn
  > go
  > go 0
  > regs 2
  > bytes 2 0 1
  > bytes 1 4097 0
  > bytes 1 0 8
  > break 0 0
  > break superstep 0
  > clear 0 0
  > clear 0 0
  > costs
  > END
  refused: BadRank
  ok
  refused: BadCommand
  refused: BadCommand
  refused: NoSuchBreak
  refused: NoSuchBreak
  ok
  refused: BadRank
  refused: BadRank
  refused: BadRank
  refused: BadRank
  refused: BadCommand
  refused: BadRange
  00
  refused: BadRange
  refused: BadRange
  refused: BadRange
  refused: BadRange
  refused: BadRange
  ended
  refused: BadRank
  refused: Over
  refused: BadCommand
  refused: Over
  refused: Over
  refused: Over
  refused: BadCommand
  refused: BadRank
  refused: BadRank
  refused: BadRange
  93 08 10 00 73 00 00 00
  ok
  ok
  ok
  refused: NoSuchBreak
  superstep 0: w 2 h 0 last
  total 2
