  $ unhex > program.raw <<'END'
  > # Rank 1 meets a word that is no instruction; ranks 0 and 2 write `a` and then loop until the limit.
  > 93 08 30 00  # li   a7, 3
  > 73 00 00 00  # ecall
  > 93 02 10 00  # li   t0, 1
  > 63 0e 55 00  # beq  a0, t0, bad
  > 37 05 00 00  # lui  a0, 0
  > 13 05 c5 02  # addi a0, a0, 44  -- the text
  > 93 05 10 00  # li   a1, 1
  > 93 08 10 01  # li   a7, 17
  > 73 00 00 00  # ecall
  > # loop:
  > 6f 00 00 00  # j    loop
  > # bad:
  > ff ff ff ff  # .word 0xFFFFFFFF
  > 61 00 00 00  # .ascii "a"
  > END
  $ bspemu run program.raw --format raw --nodes 3 --limit 1000
  aa (no-eol)
  [3]
