  $ bspemu debug examples/ranks.raw --format raw --memory 16777216 <<'END'
  > bytes 0 16777216 0
  > bytes 0 16777215 1
  > bytes 0 16777215 2
  > bytes 0 0 16777217
  > bytes 0 0 4294967295
  > bytes 0 0 17
  > bytes 0 0 16
  > bytes 0 0 15
  > bytes 0 256 0
  > bytes 0 3 33
  > END
  00
  refused: BadRange
  refused: BadRange
  refused: BadRange
  93 08 30 00 73 00 00 00 13 05 05 03 23 20 a0 10
  13
  93 08 30 00 73 00 00 00 13 05 05 03 23 20 a0 10
  93 08 30 00 73 00 00 00 13 05 05 03 23 20 a0
  00 73 00 00 00 13 05 05 03 23 20 a0 10 13 05 00
  10 93 05 10 00 93 08 10 01 73 00 00 00 93 08 10
  00
