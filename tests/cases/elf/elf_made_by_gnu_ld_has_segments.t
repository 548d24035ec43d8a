  $ bspemu run "$REPO"/tests/elf/segments.elf --nodes 3
  0
  1
  2
