  $ printf '0123456789abcdefgh' > input.txt
  $ unhex > program.raw <<'END'
  > # Reads at most 16 bytes of the input, and writes them.
  > 13 05 00 10  # li   a0, 256
  > 93 05 00 01  # li   a1, 16
  > 93 08 20 01  # li   a7, 18  -- read(256, 16)
  > 73 00 00 00  # ecall
  > 93 05 05 00  # mv   a1, a0
  > 13 05 00 10  # li   a0, 256
  > 93 08 10 01  # li   a7, 17  -- write(256, what came)
  > 73 00 00 00  # ecall
  > 93 08 10 00  # li   a7, 1  -- end()
  > 73 00 00 00  # ecall
  > END
  $ bspemu run program.raw --input input.txt --format raw
  0123456789abcdef (no-eol)
