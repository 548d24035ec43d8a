  $ printf 'abc' > input
  $ unhex > program.raw <<'END'
  > # Reads of 2, 5 and 1 bytes of the input `abc` give 2, 1 and 0; then the three bytes are written.
  > 37 15 00 00              # li   a0, 0x1000
  > 93 05 20 00              # li   a1, 2
  > 93 08 20 01              # li   a7, 18
  > 73 00 00 00              # ecall
  > 93 02 20 00              # li   t0, 2
  > 63 16 55 04              # bne  a0, t0, wrong
  > 37 15 00 00 13 05 25 00  # li   a0, 0x1002
  > 93 05 50 00              # li   a1, 5
  > 93 08 20 01              # li   a7, 18
  > 73 00 00 00              # ecall
  > 93 02 10 00              # li   t0, 1
  > 63 18 55 02              # bne  a0, t0, wrong
  > 37 15 00 00              # li   a0, 0x1000
  > 93 05 10 00              # li   a1, 1
  > 93 08 20 01              # li   a7, 18
  > 73 00 00 00              # ecall
  > 63 1e 05 00              # bnez a0, wrong
  > 37 15 00 00              # li   a0, 0x1000
  > 93 05 30 00              # li   a1, 3
  > 93 08 10 01              # li   a7, 17
  > 73 00 00 00              # ecall
  > 93 08 10 00              # li   a7, 1
  > 73 00 00 00              # ecall
  > # wrong:
  > 73 00 10 00              # ebreak
  > END
  $ bspemu run program.raw --format raw --nodes 2 --input input
  abcabc (no-eol)
