  $ bspemu debug examples/ranks.raw --format raw --nodes 3 <<'END'
  > step 0 0
  > step 0 1
  > step 00 01
  > step 0x0 0x1
  > step 0x00000000000000000000 00000000000000000000000000000001
  > step 0x2 0x0A
  > step 0 0X1
  > step 0 0x
  > step 0 x1
  > step 0 0xg
  > step 0 0x1g
  > step 0 0x0x1
  > step 0 1x
  > step 0 1a
  > step 0 a
  > step 0 +1
  > step 0 -1
  > step 0 -0
  > step 0 1.0
  > step 0 1_0
  > step 0 0b1
  > step 0 0x-1
  > step 0 ""
  > step 0 18446744073709551616
  > step 0 0x10000000000000000
  > step 0 99999999999999999999999999999999999999999
  > step 0 0xFFFFFFFFFFFFFFFFFFFFFFFFFFFFFFFF
  > step 4294967295 1
  > step 4294967296 1
  > step 0xFFFFFFFF 1
  > step 0x100000000 1
  > step 4294967296 18446744073709551616
  > break 0 4294967295
  > break 0 4294967296
  > clear 0 0xfFfFfFfF
  > clear 0 0xffffffff
  > break superstep 18446744073709551615
  > break superstep 18446744073709551616
  > clear superstep 0xffffffffffffffff
  > clear superstep 0x10000000000000000
  > bytes 0 0x00000000000000100 0x1
  > bytes 0 010 4
  > bytes 0 0xC 4
  > bytes 0 0xc 4
  > bytes 0 4294967296 0
  > regs 4294967296
  > regs 4294967295
  > queue 18446744073709551616
  > queue 4294967295
  > step 1 18446744073709551615
  > step 2 0xffffffffffffffff
  > END
  moved 0
  moved 1
  moved 1
  moved 1
  moved 1
  moved 10
  refused: BadCommand
  refused: BadCommand
  refused: BadCommand
  refused: BadCommand
  refused: BadCommand
  refused: BadCommand
  refused: BadCommand
  refused: BadCommand
  refused: BadCommand
  refused: BadCommand
  refused: BadCommand
  refused: BadCommand
  refused: BadCommand
  refused: BadCommand
  refused: BadCommand
  refused: BadCommand
  refused: BadCommand
  refused: BadCommand
  refused: BadCommand
  refused: BadCommand
  refused: BadCommand
  refused: BadRank
  refused: BadCommand
  refused: BadRank
  refused: BadCommand
  refused: BadCommand
  ok
  refused: BadCommand
  ok
  refused: NoSuchBreak
  ok
  refused: BadCommand
  ok
  refused: BadCommand
  30
  05 03 23 20
  23 20 a0 10
  23 20 a0 10
  refused: BadCommand
  refused: BadCommand
  refused: BadRank
  refused: BadCommand
  refused: BadRank
  moved 10
  moved 0
